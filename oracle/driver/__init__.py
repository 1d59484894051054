"""What the commands of oracle/ share: the voices, and the tally of their agreement."""
