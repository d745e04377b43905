// Stuffing both ways: vps_ebsp_to_rbsp and vps_rbsp_to_ebsp against the Rust.
use crate::buffers::Guarded;
use crate::calls;
use crate::reading::around;
use crate::report::{Answer, Report};
use judge::random::Random;
use judge::show::hex_of;

const LENGTH_BEFORE: u64 = 0x8070_6050_4030_2010;

type Ours = fn(&[u8], &mut [u8], &mut u64) -> u32;
type Theirs = fn(&[u8]) -> Vec<u8>;

const WAYS: [(&str, Ours, Theirs); 2] = [
    ("vps_ebsp_to_rbsp", calls::ebsp_to_rbsp, bitstream::nal::ebsp_to_rbsp),
    ("vps_rbsp_to_ebsp", calls::rbsp_to_ebsp, bitstream::nal::rbsp_to_ebsp),
];

pub struct Stuffing {
    random: Random,
    output: Guarded<u8>,
}

impl Stuffing {
    pub fn new(seed: u64) -> Self {
        Self { random: Random::new(seed), output: Guarded::new() }
    }

    // All strings over the bytes 0 to 4 up to a length, all strings of one and two bytes, and random ones of all lengths.
    pub fn compare_all(&mut self, count: usize, report: &mut Report) {
        for length in 0..=7 {
            for number in 0..5usize.pow(length) {
                let bytes: Vec<u8> = (0..length).map(|k| (number / 5usize.pow(k) % 5) as u8).collect();
                self.compare("bytes 0 to 4", &bytes, report);
            }
        }
        for number in 0..=u16::MAX {
            self.compare("two bytes", &number.to_be_bytes(), report);
        }
        for i in 0..count {
            let length = self.random.below(if i % 1024 == 0 { 100_000 } else { 400 });
            let bytes = if i % 4 == 0 { self.random.bytes(length) } else { self.random.bytes_rich_in_zeros(length) };
            self.compare("random bytes", &bytes, report);
        }
    }

    pub fn compare(&mut self, kind: &'static str, bytes: &[u8], report: &mut Report) {
        report.input("stuffing", kind);
        for (name, ours, theirs) in WAYS {
            let result = theirs(bytes);
            for room in around(result.len()) {
                self.call(name, ours, bytes, &result, room, report);
            }
        }
    }

    fn call(&mut self, name: &'static str, ours: Ours, bytes: &[u8], result: &[u8], room: usize, report: &mut Report) {
        let salt = self.random.number() as u32;
        let (expected, length, output) = match room < result.len() {
            true => (32, LENGTH_BEFORE, &[][..]),
            false => (0, result.len() as u64, result),
        };
        let mut stored = LENGTH_BEFORE;
        let number = ours(bytes, self.output.lend(room, salt), &mut stored);
        report.answer(name, if expected == 0 { Answer::Success } else { Answer::Refused(expected) });
        if (number, stored) != (expected, length) || !self.output.holds(output) {
            report.difference(|| {
                format!(
                    "{name} with output {room}: {}\nexpected number {expected}, length {length}, output {}\ngiven    number {number}, length {stored}, output {}",
                    hex_of(bytes),
                    hex_of(output),
                    hex_of(self.output.now())
                )
            });
        }
    }
}
