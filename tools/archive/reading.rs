// Reading: vps_parse against the Rust, and against the second judge of extension bits, of id 0 and of cut codes where the
// Rust's answer doesn't count, with the rules of this project for lengths and buffers (docs/DIFFERENCES.md).
use crate::buffers::Guarded;
use crate::calls;
use crate::counts::Ruled;
use crate::report::{shown, Answer, Report};
use bitstream::nal::ebsp_to_rbsp;
use judge::cut_rule::{AtEnd, CODE_PAST_END};
use judge::extension_rule::STOP_BIT_MISSING;
use judge::judges::{Judges, Rule};
use judge::random::Random;
use judge::record::Reading;
use judge::show::hex_of;
use judge::structures::mode_of;

const MOST_RBSP: usize = 65_535;

// The refusal of reserved sublayers, directly behind that of id 0.
const SUBLAYERS: u32 = 5;

// What stands in the numbers before a call.
const LENGTH_BEFORE: u64 = 0x1122_3344_5566_7788;
const BITS_BEFORE: u64 = 0x99aa_bbcc_ddee_ff00;

// What a call is to leave: the number, the two stored numbers, and what work buffer and record begin with.
#[derive(Clone, Copy)]
struct Left<'a> {
    number: u32,
    length: u64,
    bits: u64,
    work: &'a [u8],
    record: &'a [u32],
}

// What the judges say, the answer that counts, and the RBSP where the header is that of a VPS.
pub struct Judged {
    pub judges: Judges,
    pub reading: Reading,
    rbsp: Vec<u8>,
}

impl Judged {
    pub fn of(unit: &[u8]) -> Self {
        let judges = Judges::of(unit);
        let reading = Reading::of(judges.found());
        let rbsp = match reading {
            Reading::Refused(1 | 2) => Vec::new(),
            _ => ebsp_to_rbsp(&unit[2..]),
        };
        Self { judges, reading, rbsp }
    }

    // Counts the unit where the second judge has an answer. The judges may differ as the rules say, and not otherwise.
    fn count(&self, unit: &[u8], report: &mut Report) {
        if let Some(what) = self.ruled() {
            report.ruled(what);
        }
        if self.judges.set_aside() == Some(Rule::CutCode) {
            self.judges.cut(unit).into_iter().for_each(|cut| report.cut(cut));
        }
        if !self.judges.as_claimed() {
            report.difference(|| {
                format!("the Rust and the rules of extension bits, of id 0 and of cut codes: {}", hex_of(unit))
            });
        }
    }

    fn ruled(&self) -> Option<Ruled> {
        let accepted = matches!(self.reading, Reading::Accepted { .. });
        match (self.judges.set_aside(), self.judges.found_with_any_id()) {
            (Some(Rule::Id), Ok(_)) => Some(Ruled::IdZeroAccepted),
            (Some(Rule::Id), Err(SUBLAYERS)) => Some(Ruled::IdZeroSublayers),
            (Some(Rule::Id), Err(CODE_PAST_END)) => Some(Ruled::CutCodeIdZero),
            (Some(Rule::Id), Err(_)) => Some(Ruled::IdZeroRefused),
            (Some(Rule::CutCode), _) if self.refused_at_stop_bit() => Some(Ruled::CutCodeStopBit),
            (Some(Rule::CutCode), _) => Some(Ruled::CutCodeRefused),
            (Some(Rule::Extension), _) if accepted => Some(Ruled::UnitAccepted),
            (Some(Rule::Extension), _) => Some(Ruled::UnitRefused),
            (None, _) => self.not_set_aside(),
        }
    }

    fn refused_at_stop_bit(&self) -> bool {
        self.judges.refused_by_rust() == Some(STOP_BIT_MISSING)
    }

    // What a unit shows for which the Rust's answer counts.
    fn not_set_aside(&self) -> Option<Ruled> {
        let at_end = self.judges.code_at_end().map(|(_, at_end)| at_end);
        match (&self.reading, at_end) {
            (Reading::Refused(2), _) if self.judges.has_id_zero() => Some(Ruled::IdZeroOfOtherType),
            (_, Some(AtEnd::TooLong)) => Some(Ruled::CodeOfZerosAtEnd),
            (_, Some(AtEnd::Whole)) if self.refused_at_stop_bit() => Some(Ruled::CodeAtEndStopBit),
            (_, Some(AtEnd::Whole)) => Some(Ruled::CodeAtEndRefused),
            _ => self.judges.extension_read().then_some(Ruled::UnitOfBoth),
        }
    }

    // What a call shows that is refused before the id or a code is looked at.
    fn before_bits(&self, number: u32) -> Option<Ruled> {
        let has_id_zero = self.judges.has_id_zero();
        match number {
            3 if has_id_zero => Some(Ruled::IdZeroTooLong),
            3 if self.judges.cut_too_late() => Some(Ruled::CutCodeTooLong),
            4 if has_id_zero => Some(Ruled::IdZeroWorkShort),
            4 if self.judges.set_aside() == Some(Rule::CutCode) => Some(Ruled::CutCodeWorkShort),
            _ => None,
        }
    }

    fn left(&self, work: usize, record: usize) -> Left<'_> {
        let refused = |number| Left { number, length: LENGTH_BEFORE, bits: BITS_BEFORE, work: &[], record: &[] };
        let rbsp = &self.rbsp[..];
        match &self.reading {
            Reading::Refused(number @ (1 | 2)) => refused(*number),
            _ if rbsp.len() > MOST_RBSP => refused(3),
            _ if work < rbsp.len() => refused(4),
            Reading::Refused(number) => Left { work: rbsp, ..refused(*number) },
            Reading::Accepted { record: numbers, .. } if record < numbers.len() => {
                Left { length: numbers.len() as u64, work: rbsp, ..refused(30) }
            }
            Reading::Accepted { record: numbers, bits_used } => {
                Left { number: 0, length: numbers.len() as u64, bits: *bits_used as u64, work: rbsp, record: numbers }
            }
        }
    }

    fn answer(&self, number: u32) -> Answer {
        match &self.reading {
            Reading::Accepted { record, .. } if number == 0 => Answer::Of(mode_of(record)),
            _ => Answer::Refused(number),
        }
    }
}

pub struct Reader {
    random: Random,
    work: Guarded<u8>,
    record: Guarded<u32>,
}

impl Reader {
    pub fn new(seed: u64) -> Self {
        Self { random: Random::new(seed), work: Guarded::new(), record: Guarded::new() }
    }

    // The unit with buffers of one length each, or of every length around the boundaries.
    pub fn compare(&mut self, unit: &[u8], judged: &Judged, every: bool, report: &mut Report) {
        judged.count(unit, report);
        let needed = match &judged.reading {
            Reading::Accepted { record, .. } => record.len(),
            Reading::Refused(_) => [0, 1, 40, 200][self.random.below(4)],
        };
        if !every {
            let (work, record) = (self.length(judged.rbsp.len()), self.length(needed));
            return self.call(unit, judged, work, record, report);
        }
        for work in around(judged.rbsp.len()) {
            for record in around(needed) {
                self.call(unit, judged, work, record, report);
            }
        }
    }

    // Mostly just enough, or more; now and then too little.
    fn length(&mut self, exact: usize) -> usize {
        match self.random.below(16) {
            0..=8 => exact,
            9 | 10 => exact + 1,
            11..=13 => exact + self.random.below(100),
            14 => exact.saturating_sub(1),
            _ => self.random.below(exact + 1),
        }
    }

    fn call(&mut self, unit: &[u8], judged: &Judged, work: usize, record: usize, report: &mut Report) {
        let salt = self.random.number() as u32;
        let left = judged.left(work, record);
        let (mut length, mut bits) = (LENGTH_BEFORE, BITS_BEFORE);
        let number =
            calls::parse(unit, self.work.lend(work, salt), self.record.lend(record, salt), &mut length, &mut bits);
        report.answer("vps_parse", judged.answer(left.number));
        if let Some(what) = judged.before_bits(left.number) {
            report.ruled(what);
        }
        let numbers = (number, length, bits) == (left.number, left.length, left.bits);
        if !numbers || !self.work.holds(left.work) || !self.record.holds(left.record) {
            report.difference(|| {
                format!(
                    "vps_parse with work {work}, record {record}: {}\nexpected {}\ngiven    {}",
                    hex_of(unit),
                    text(left),
                    text(Left { number, length, bits, work: self.work.now(), record: self.record.now() })
                )
            });
        }
    }
}

// Nothing, one less, just enough, one more.
pub fn around(exact: usize) -> Vec<usize> {
    let mut lengths = vec![0, exact.saturating_sub(1), exact, exact + 1];
    lengths.dedup();
    lengths
}

fn text(left: Left) -> String {
    let Left { number, length, bits, work, record } = left;
    format!("number {number}, length {length}, bits {bits}, work {}, record {}", hex_of(work), shown(record))
}
