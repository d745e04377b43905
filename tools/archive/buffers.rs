// Buffers that are lent to the archive: filled with a pattern beforehand and compared as a whole afterwards, with a
// guard on each side of the lent part.

// What stands at a place before a call.
pub trait Pattern: Copy + PartialEq {
    fn at(place: usize, salt: u32) -> Self;
}

impl Pattern for u8 {
    fn at(place: usize, salt: u32) -> Self {
        (place as u32).wrapping_mul(89).wrapping_add(salt) as u8
    }
}

impl Pattern for u32 {
    fn at(place: usize, salt: u32) -> Self {
        (place as u32).wrapping_mul(0x9e37_79b1) ^ salt
    }
}

impl Pattern for u64 {
    fn at(place: usize, salt: u32) -> Self {
        u64::from(u32::at(place, salt)) << 32 | u64::from(u32::at(place, !salt))
    }
}

const GUARD: usize = 24;

pub struct Guarded<T> {
    cells: Vec<T>,
    length: usize,
    salt: u32,
}

impl<T: Pattern> Guarded<T> {
    pub fn new() -> Self {
        Self { cells: Vec::new(), length: 0, salt: 0 }
    }

    // A buffer of a length, filled with the pattern of a salt.
    pub fn lend(&mut self, length: usize, salt: u32) -> &mut [T] {
        (self.length, self.salt) = (length, salt);
        self.cells.clear();
        self.cells.extend((0..length + 2 * GUARD).map(|place| T::at(place, salt)));
        &mut self.cells[GUARD..GUARD + length]
    }

    // Whether the buffer begins with a result, and all else, the guards too, is as it was.
    pub fn holds(&self, result: &[T]) -> bool {
        let as_before = |from: usize, to: usize| {
            self.cells[from..to].iter().zip(from..).all(|(&cell, place)| cell == T::at(place, self.salt))
        };
        let end = GUARD + result.len();
        end <= GUARD + self.length
            && as_before(0, GUARD)
            && self.cells[GUARD..end] == *result
            && as_before(end, self.cells.len())
    }

    // What is in the lent part now.
    pub fn now(&self) -> &[T] {
        &self.cells[GUARD..GUARD + self.length]
    }
}
