// The Rust's bit reader, and of each code where it begins and ends. Past the end the Rust reads zeros, and a caller who
// minds is to compare the place with the end, as its own comment says: that is done here, behind each code.
use bitstream::BitstreamError;
use bitstream::bit_reader::BitReader as RustReader;
use std::cell::Cell;
use std::ops::{Deref, DerefMut};
use std::panic::Location;

#[derive(Clone, Copy, PartialEq, Eq)]
pub enum Taken {
    Whole,
    // a value, of bits that aren't all there
    Cut,
    // the Rust's error
    TooLong,
}

// A code that was read.
#[derive(Clone, Copy)]
pub struct Code {
    pub start: usize,
    // where the Rust's reading of it ended
    pub end: usize,
    // how many bits the reader has
    pub total: usize,
    pub taken: Taken,
    pub read_at: &'static Location<'static>,
}

// What a reading came to: the first code that was cut, and the last code.
#[derive(Clone, Copy, Default)]
pub struct Seen {
    pub cut: Option<Code>,
    pub last: Option<Code>,
}

thread_local! {
    static SEEN: Cell<Seen> = const { Cell::new(Seen { cut: None, last: None }) };
}

// What a reading gives, and the codes that it came to.
pub fn watching<T>(reading: impl FnOnce() -> T) -> (T, Seen) {
    SEEN.set(Seen::default());
    let given = reading();
    (given, SEEN.get())
}

fn note(code: Code) {
    let before = SEEN.get();
    let cut = (code.taken == Taken::Cut).then_some(code);
    SEEN.set(Seen { cut: before.cut.or(cut), last: Some(code) });
}

pub struct BitReader<'a>(RustReader<'a>);

impl<'a> BitReader<'a> {
    pub fn new(bytes: &'a [u8]) -> Self {
        Self(RustReader::new(bytes))
    }

    // The Rust's answer. The code was cut if nothing was left before, or if the place is past the end behind it.
    #[track_caller]
    pub fn ue(&mut self) -> Result<u32, BitstreamError> {
        let (start, nothing_left) = (self.bit_pos(), self.at_end());
        let value = self.0.ue();
        let (end, total) = (self.bit_pos(), self.total_bits());
        let taken = match value {
            Err(_) => Taken::TooLong,
            Ok(_) if nothing_left || end > total => Taken::Cut,
            Ok(_) => Taken::Whole,
        };
        note(Code { start, end, total, taken, read_at: Location::caller() });
        value
    }
}

// All else is the Rust's.
impl<'a> Deref for BitReader<'a> {
    type Target = RustReader<'a>;

    fn deref(&self) -> &Self::Target {
        &self.0
    }
}

impl DerefMut for BitReader<'_> {
    fn deref_mut(&mut self) -> &mut Self::Target {
        &mut self.0
    }
}
