// The crate of the Rust's files: the modules that are at hand, and the error type that they use.
#![allow(dead_code)]

pub mod bit_reader;
pub mod bit_writer;
pub mod h266;
pub mod nal;

#[derive(Debug, Clone, PartialEq, Eq)]
pub enum BitstreamError {
    UnexpectedEnd(String),
    InvalidData(String),
    Unsupported(String),
}

impl BitstreamError {
    pub fn invalid(message: impl Into<String>) -> Self {
        BitstreamError::InvalidData(message.into())
    }

    pub fn unexpected_end(message: impl Into<String>) -> Self {
        BitstreamError::UnexpectedEnd(message.into())
    }

    pub fn unsupported(message: impl Into<String>) -> Self {
        BitstreamError::Unsupported(message.into())
    }
}
