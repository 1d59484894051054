// The macro `lazy_static!`, as far as the original uses it, over the standard library.
macro_rules! lazy_static {
    ($($seen:vis static ref $name:ident : $kind:ty = $value:expr;)*) => {
        $($seen static $name: std::sync::LazyLock<$kind> = std::sync::LazyLock::new(|| $value);)*
    };
}
