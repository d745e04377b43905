// Writing: vps_write against the Rust, which also says what is well formed (judge::record); against the second
// judge where extension bits end in 0 and where the id is 0.
use crate::buffers::Guarded;
use crate::calls;
use crate::counts::Ruled;
use crate::reading::around;
use crate::report::{shown, Answer, Report};
use bitstream::h266::VvcVps;
use judge::judges::Rule;
use judge::random::Random;
use judge::record::{set_aside, written_and_read, written_by_rust};
use judge::show::hex_of;
use judge::structures::mode_of;

const WRITTEN_BEFORE: u64 = 0x0102_0304_0506_0708;

pub struct Writer {
    random: Random,
    output: Guarded<u8>,
}

impl Writer {
    pub fn new(seed: u64) -> Self {
        Self { random: Random::new(seed), output: Guarded::new() }
    }

    // The record with an output of one length, or of every length around the boundary. Gives the structure that is read
    // from the unit, if there is one.
    pub fn compare(&mut self, record: &[u32], every: bool, report: &mut Report) -> Option<VvcVps> {
        let (unit, vps) = written_and_read(record).unzip();
        count(record, unit.is_some(), report);
        let exact = unit.as_ref().map_or_else(|| self.random.below(2 * record.len() + 2), Vec::len);
        let lengths = match self.random.below(16) {
            _ if every => around(exact),
            0..=9 => vec![exact],
            10..=12 => vec![exact + self.random.below(100)],
            13 => vec![exact.saturating_sub(1)],
            _ => vec![self.random.below(exact + 1)],
        };
        for length in lengths {
            self.call(record, unit.as_deref(), length, report);
        }
        vps
    }

    fn call(&mut self, record: &[u32], unit: Option<&[u8]>, room: usize, report: &mut Report) {
        let salt = self.random.number() as u32;
        let (expected, count, bytes) = match unit {
            None => (31, WRITTEN_BEFORE, &[][..]),
            Some(unit) if room < unit.len() => (32, WRITTEN_BEFORE, &[][..]),
            Some(unit) => (0, unit.len() as u64, unit),
        };
        let mut stored = WRITTEN_BEFORE;
        let number = calls::write(record, self.output.lend(room, salt), &mut stored);
        report.answer("vps_write", if expected == 0 { Answer::Of(mode_of(record)) } else { Answer::Refused(expected) });
        if (number, stored) != (expected, count) || !self.output.holds(bytes) {
            report.difference(|| {
                format!(
                    "vps_write with output {room}: {}\nexpected number {expected}, written {count}, output {}\ngiven    number {number}, written {stored}, output {}",
                    shown(record),
                    hex_of(bytes),
                    hex_of(self.output.now())
                )
            });
        }
    }
}

// Counts a list that is set aside. Of those whose extension ends in 0 the Rust writes none.
fn count(list: &[u32], well_formed: bool, report: &mut Report) {
    match set_aside(list) {
        // a list has no codes
        None | Some(Rule::CutCode) => {}
        Some(Rule::Id) => report.ruled(Ruled::IdZeroList),
        Some(Rule::Extension) => {
            report.ruled(if well_formed { Ruled::ListWritten } else { Ruled::ListRefused });
            if written_by_rust(list) {
                report.difference(|| format!("the Rust writes a list whose extension ends in 0: {}", shown(list)));
            }
        }
    }
}
