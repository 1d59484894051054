"""A reference of document 01, written from its text: the third voice beside the original Rust and the port."""
