//! What sinks are handed and what payloaders send.

mod memory_sink;
mod payloader;
mod red_sink;
