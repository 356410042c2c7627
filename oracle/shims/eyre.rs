//! The names that bpe/mod.rs takes from `eyre`. Nothing that is run here reaches them.

pub type Result<T> = std::result::Result<T, String>;

#[macro_export]
macro_rules! anyhow {
    ($($text:tt)*) => { format!($($text)*) };
}
