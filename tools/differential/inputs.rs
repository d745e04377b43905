// Units to compare: all short ones, units of every mode and size as they are written, damaged copies, random bytes, units
// with many layers and sets, units whose figures are at their ends, and units around the greatest length.
use archive::cases::with_schedules;
use bitstream::h266::{write_vps, VvcVps};
use bitstream::nal::{ebsp_to_rbsp, rbsp_to_ebsp};
use judge::draft::{unit_of_rbsp, Draft};
use judge::extension_rule::{write_rbsp, write_unit};
use judge::page::{MOST_LAYERS, MOST_SETS};
use judge::random::Random;
use judge::show::unit_of;
use judge::structures::{Maker, Mode, MODES};
use judge::units::Units;
use std::collections::VecDeque;

pub struct Input {
    pub unit: Vec<u8>,
    // how it was made
    pub kind: &'static str,
}

// ── All short units ─────────────────────────────────────────────────────

const U: &str = "100000030233000040";

// All units of up to two bytes behind the header, all units of no byte and of one, all headers alone and before U's rest.
pub fn exhaustive() -> impl Iterator<Item = Input> {
    let made = |kind, unit| Input { unit, kind };
    let rest = unit_of(U).expect("pairs of hexadecimal digits");
    let headers = 0..=u16::MAX;
    let none = [made("no byte", Vec::new()), made("nothing behind the header", vec![0x00, 0x71])];
    none.into_iter()
        .chain((0..=255).map(move |a| made("one byte", vec![a])))
        .chain((0..=255).map(move |a| made("one byte behind the header", vec![0x00, 0x71, a])))
        .chain(
            (0..=u16::MAX)
                .map(move |ab| made("two bytes behind the header", [[0x00, 0x71], ab.to_be_bytes()].concat())),
        )
        .chain(headers.clone().map(move |ab| made("any header", ab.to_be_bytes().to_vec())))
        .chain(headers.map(move |ab| made("any header before U", [&ab.to_be_bytes()[..], &rest].concat())))
}

// ── A stream of all kinds ───────────────────────────────────────────────

// Units of the oracle up to a length. They are made anew now and then, since each stream holds all that it gave.
struct Stream {
    longest: usize,
    units: Units,
    given: usize,
}

const STREAM_LENGTH: usize = 20_000;

impl Stream {
    fn new(seed: u64, longest: usize) -> Self {
        Self { longest, units: Units::new(seed, longest), given: 0 }
    }

    fn next(&mut self, random: &mut Random) -> Input {
        if self.given == STREAM_LENGTH {
            *self = Stream::new(random.number(), self.longest);
        }
        self.given += 1;
        let unit = self.units.next();
        Input { unit: unit.bytes, kind: unit.kind }
    }
}

pub struct Inputs {
    random: Random,
    maker: Maker,
    small: Maker,
    streams: [Stream; 3],
    // units for damaged copies
    pool: Vec<Vec<u8>>,
    pending: VecDeque<Input>,
    longs: usize,
    // the RBSP of a unit that is longer than the greatest by its tables
    tables: Vec<u8>,
}

const POOL: usize = 1_024;

// One unit in so many has many layers or sets.
const WIDE: usize = 256;

// One unit in so many has figures at their ends.
const EXTREME: usize = 256;

// With so many timing entries of 32 schedules tables are longer than the greatest length.
const TIMING_ENTRIES: usize = 32;

// A long extension ends in at most so many zeros: in a run of zeros with a one among them the Rust takes time that grows
// with the square of its length.
const MOST_ZEROS: usize = 4_096;

impl Inputs {
    pub fn new(seed: u64) -> Self {
        let mut random = Random::new(seed);
        let streams = [64, 400, 4_096].map(|longest| Stream::new(random.number(), longest));
        let [maker, small] = [false, true].map(|small| Maker { random: Random::new(random.number()), small });
        let tables = ebsp_to_rbsp(&with_schedules(TIMING_ENTRIES).unit[2..]);
        Self { random, maker, small, streams, pool: Vec::new(), pending: VecDeque::new(), longs: 0, tables }
    }

    // The next unit of at most some four thousand bytes.
    pub fn next(&mut self) -> Input {
        if let Some(input) = self.pending.pop_front() {
            return input;
        }
        if self.random.below(WIDE) == 0 {
            return self.wide();
        }
        if self.random.below(EXTREME) == 0 {
            return self.extreme();
        }
        match self.random.below(32) {
            0..=12 => self.of_stream(0),
            13..=17 => self.of_stream(1),
            18 => self.of_stream(2),
            19..=28 if !self.pool.is_empty() => self.damaged(),
            _ => self.bytes(),
        }
    }

    fn of_stream(&mut self, index: usize) -> Input {
        let input = self.streams[index].next(&mut self.random);
        if self.pool.len() < POOL {
            self.pool.push(input.unit.clone());
        } else if self.random.below(4) == 0 {
            let place = self.random.below(POOL);
            self.pool[place].clone_from(&input.unit);
        }
        input
    }

    // Mostly of mode 2, with as many layers and rows as there can be, or fewer.
    fn wide(&mut self) -> Input {
        let mode =
            [Mode::EachLayer, Mode::Zero, Mode::One, Mode::TwoInferred, Mode::Two, Mode::Two][self.random.below(6)];
        let fewer = 2 + self.random.below(MOST_LAYERS - 1);
        let layers = [fewer, MOST_LAYERS][self.random.below(2)];
        let rows = [1 + self.random.below(MOST_SETS - 1), MOST_SETS - 1, MOST_SETS - 1][self.random.below(3)];
        let v = self.maker.wide(mode, layers, rows);
        Input { unit: write_unit(&v).expect("the structure is written"), kind: "many layers and sets" }
    }

    fn extreme(&mut self) -> Input {
        let mode = [Mode::Zero, Mode::One, Mode::TwoInferred, Mode::Two][self.random.below(4)];
        let v = self.small.with_extreme_figures(mode);
        Input { unit: write_unit(&v).expect("the structure is written"), kind: "figures at their ends" }
    }

    fn bytes(&mut self) -> Input {
        let length = self.random.below(60);
        match self.random.below(8) {
            0 => Input { unit: self.random.bytes(length), kind: "random bytes" },
            1..=3 => Input { unit: headed(&self.random.bytes(length)), kind: "random bytes behind the header" },
            _ => {
                let mut payload = self.random.bytes_rich_in_zeros(length);
                self.put_id(&mut payload);
                Input { unit: headed(&payload), kind: "zeros and few bytes behind the header" }
            }
        }
    }

    // Any id, which mostly is above 0, so that the rest is read.
    fn put_id(&mut self, payload: &mut [u8]) {
        let id = self.random.below(16) as u8;
        if let Some(first) = payload.first_mut() {
            *first = *first & 0x0f | id << 4;
        }
    }

    // ── Damaged copies ──────────────────────────────────────────────────

    fn picked(&mut self) -> Vec<u8> {
        let place = self.random.below(self.pool.len());
        self.pool[place].clone()
    }

    fn damaged(&mut self) -> Input {
        let mut unit = self.picked();
        let place = self.random.below(unit.len() + 1);
        let kind = match self.random.below(9) {
            0 | 1 => {
                let other = self.picked();
                unit.truncate(place);
                unit.extend(&other[self.random.below(other.len() + 1)..]);
                "splice of two units"
            }
            2 => {
                self.flip(&mut unit);
                "bits flipped"
            }
            3 => {
                let count = 1 + self.random.below(40);
                unit.extend(self.random.bytes_rich_in_zeros(count));
                "bytes appended"
            }
            4 => {
                lose_stuffing(&mut unit, place);
                "stuffing byte lost"
            }
            5 => {
                let inserted: &[u8] = [&[3][..], &[0, 0, 3], &[0, 0]][self.random.below(3)];
                unit.splice(place..place, inserted.iter().copied());
                "stuffing byte inserted"
            }
            6 => {
                unit.drain(place..(place + 1 + self.random.below(3)).min(unit.len()).max(place));
                "bytes lost"
            }
            7 => {
                unit = self.cut_at_bit(&unit);
                "RBSP cut at a bit, and stuffed again"
            }
            _ => return self.cut(unit, place),
        };
        Input { unit, kind }
    }

    // The RBSP up to a bit, with zeros or ones up to the next byte, or without the byte begun.
    fn cut_at_bit(&mut self, unit: &[u8]) -> Vec<u8> {
        let (header, payload) = unit.split_at(unit.len().min(2));
        let mut rbsp = ebsp_to_rbsp(payload);
        let bits = self.random.below(8 * rbsp.len() + 1);
        rbsp.truncate(bits.div_ceil(8));
        let rest = 0xff >> (bits % 8);
        match rbsp.last_mut() {
            Some(last) if bits % 8 > 0 => *last = [*last & !rest, *last | rest][self.random.below(2)],
            _ => {}
        }
        rbsp.truncate(rbsp.len() - if bits % 8 > 0 { self.random.below(2) } else { 0 });
        [header, &rbsp_to_ebsp(&rbsp)].concat()
    }

    // Behind one byte, or now and then behind each.
    fn cut(&mut self, unit: Vec<u8>, place: usize) -> Input {
        if self.random.below(64) == 0 && unit.len() <= 400 {
            self.pending
                .extend((0..unit.len()).map(|end| Input { unit: unit[..end].to_vec(), kind: "cut behind each byte" }));
        }
        Input { unit: unit[..place].to_vec(), kind: "cut" }
    }

    fn flip(&mut self, unit: &mut [u8]) {
        for _ in 0..1 + self.random.below(8) {
            if !unit.is_empty() {
                let place = self.random.below(unit.len());
                unit[place] ^= 1 << self.random.below(8);
            }
        }
    }

    fn flipped(&mut self, mut unit: Vec<u8>) -> Vec<u8> {
        self.flip(&mut unit);
        unit
    }

    // ── Long units ──────────────────────────────────────────────────────

    // A unit of over four thousand bytes: of any length, or around the greatest.
    pub fn long(&mut self) -> Input {
        loop {
            let v = self.structure();
            let length = [65_534, 65_535, 65_536, 65_537, 4_096 + self.random.below(61_000)][self.random.below(5)];
            let (kind, unit) = match self.random.below(10) {
                0..=2 => ("long extension", self.extended(v, length)),
                3 => ("long, followed by bytes", self.followed(v, length)),
                4 => ("long, followed by zeros", followed_by_zeros(v, length)),
                5 => ("long, bits flipped", self.extended(v, length).map(|unit| self.flipped(unit))),
                6 => ("long extension, followed by zeros", self.extended_before_zeros(v, length)),
                7 => ("long, zeros or ones and zeros behind the extension flag", self.flagged(v, length)),
                _ => ("long tables", Some(self.grown())),
            };
            if let Some(unit) = unit {
                return Input { unit, kind };
            }
        }
    }

    // A short unit with id 0, followed by bytes up to about the greatest length: over it 3 comes before 34.
    pub fn long_with_id_zero(&mut self) -> Input {
        self.longs += 1;
        let v = VvcVps { vps_video_parameter_set_id: 0, ..self.small.structure(MODES[self.longs % MODES.len()]) };
        let length = [65_534, 65_535, 65_536, 65_537, 65_600][self.random.below(5)];
        Input { unit: self.followed(v, length).expect("a small structure is short"), kind: "long, with id 0" }
    }

    // Long tables, cut up to about the greatest length: over it 3 comes before 35.
    pub fn long_and_cut(&mut self) -> Input {
        let length = [65_534, 65_535, 65_536, 65_537, 4_096 + self.random.below(61_000)][self.random.below(5)];
        Input { unit: unit_of_rbsp(&self.tables[..length]), kind: "long tables, cut" }
    }

    fn structure(&mut self) -> VvcVps {
        self.longs += 1;
        self.maker.structure(MODES[self.longs % MODES.len()])
    }

    fn extended(&mut self, v: VvcVps, length: usize) -> Option<Vec<u8>> {
        Some(unit_of_rbsp(&self.extended_rbsp(v, length)?))
    }

    // With extension bits up to a length of the RBSP, mostly as many ones as zeros; the last is a 1, or the last are zeros.
    fn extended_rbsp(&mut self, mut v: VvcVps, length: usize) -> Option<Vec<u8>> {
        v.vps_extension_flag = 1;
        v.vps_extension_data = vec![1];
        let begun = write_vps(&v).expect("the Rust writes the structure").len();
        let bits = 8 * length.checked_sub(begun)?;
        let one_in = if self.random.below(8) == 0 { 40 } else { 2 };
        let zeros = if self.random.below(2) == 0 { 0 } else { 1 + self.random.below(bits.min(MOST_ZEROS)) };
        v.vps_extension_data = (0..bits).map(|_| u8::from(self.random.below(one_in) == 0)).collect();
        v.vps_extension_data.push(1);
        v.vps_extension_data[bits + 1 - zeros..].fill(0);
        Some(write_rbsp(&v).expect("the structure is written"))
    }

    // With extension bits up to some length, and whole bytes of zeros behind the stop bit.
    fn extended_before_zeros(&mut self, v: VvcVps, length: usize) -> Option<Vec<u8>> {
        let extended = self.random.below(length);
        let mut rbsp = self.extended_rbsp(v, extended)?;
        rbsp.resize(length, 0);
        Some(unit_of_rbsp(&rbsp))
    }

    // With extension flag 1, and behind it nothing but zeros, or ones up to the middle and then zeros.
    fn flagged(&mut self, mut v: VvcVps, length: usize) -> Option<Vec<u8>> {
        v.vps_extension_flag = 1;
        let draft = Draft::of(&v);
        let mut rbsp = draft.rbsp(draft.places("vps_extension_flag")[0] + 1);
        let count = length.checked_sub(rbsp.len())?;
        let ones = if self.random.below(2) == 0 { 0 } else { count / 2 };
        rbsp.extend(vec![0xff; ones]);
        rbsp.resize(length, 0);
        Some(unit_of_rbsp(&rbsp))
    }

    // Without extension, and with random bytes behind.
    fn followed(&mut self, v: VvcVps, length: usize) -> Option<Vec<u8>> {
        let mut rbsp = without_extension(v);
        let count = length.checked_sub(rbsp.len())?;
        rbsp.extend(self.random.bytes(count));
        Some(unit_of_rbsp(&rbsp))
    }

    // A structure that is long by its tables, or a copy with damage.
    fn grown(&mut self) -> Vec<u8> {
        let mut unit = Vec::new();
        while unit.len() <= 4_096 || unit.len() > 100_000 {
            let v = self.structure();
            unit = write_unit(&v).expect("the structure is written");
        }
        match self.random.below(4) {
            0 => self.flip(&mut unit),
            1 => unit.truncate(self.random.below(unit.len())),
            _ => {}
        }
        unit
    }
}

fn headed(payload: &[u8]) -> Vec<u8> {
    [&[0x00, 0x71], payload].concat()
}

// Without the first stuffing byte from a place on.
fn lose_stuffing(unit: &mut Vec<u8>, place: usize) {
    let from = place.saturating_sub(2);
    if let Some(found) = unit[from..].windows(3).position(|three| three == [0, 0, 3]) {
        unit.remove(from + found + 2);
    }
}

fn without_extension(mut v: VvcVps) -> Vec<u8> {
    v.vps_extension_flag = 0;
    v.vps_extension_data.clear();
    write_vps(&v).expect("the Rust writes the structure")
}

fn followed_by_zeros(v: VvcVps, length: usize) -> Option<Vec<u8>> {
    let mut rbsp = without_extension(v);
    let count = length.checked_sub(rbsp.len())?;
    rbsp.extend(vec![0; count]);
    Some(unit_of_rbsp(&rbsp))
}
