//! What the programs that read lines share: bytes and numbers in lines, the whole of an input, and how a program ends.

pub mod digits;
pub mod hex;
pub mod memory;
pub mod numbers;
pub mod streams;

/// `write!` to a text, whose fault is out of memory.
#[macro_export]
macro_rules! put {
    ($to:expr, $($what:tt)*) => {
        $to.write_fmt(format_args!($($what)*)).map_err(|_| codec_payload::AllocError)
    };
}

/// The same, with a newline after it.
#[macro_export]
macro_rules! put_line {
    ($to:expr, $($what:tt)*) => {
        $to.write_fmt(format_args!($($what)*))
            .and_then(|()| $to.write_char('\n'))
            .map_err(|_| codec_payload::AllocError)
    };
}
