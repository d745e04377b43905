//! The kinds of schedules.
#![forbid(unsafe_code)]

/// A kind of schedules: a list of them in each sublayer, where the timing section's flag of the kind is 1.
#[derive(Clone, Copy, Debug, PartialEq, Eq, Hash)]
#[repr(u32)]
pub enum Kind {
    /// NAL schedules, which come first in a sublayer.
    Nal = 0,
    /// VCL schedules.
    Vcl = 1,
}

impl From<Kind> for u32 {
    fn from(kind: Kind) -> u32 {
        kind as u32
    }
}
