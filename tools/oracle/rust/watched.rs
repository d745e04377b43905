// The Rust's reader of a VPS, unchanged, over a bit reader that notes which codes it comes to. All else is the library of
// the Rust's files.
#![allow(dead_code)]

#[path = "watched_reader.rs"]
pub mod bit_reader;
pub mod h266;

pub use bitstream::{BitstreamError, bit_writer, nal};

// The files that read codes of a VPS, to tell by its line which code one is.
pub const SOURCES: [(&str, &str); 2] =
    [("vps.rs", include_str!("h266/vps.rs")), ("params.rs", include_str!("h266/params.rs"))];
