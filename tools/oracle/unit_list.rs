// The list that crates/units_replay replays: units of all kinds with the judges' answers, each with a length of the work
// buffer and of the record. The Rust has no buffers: 3, 4 and 30 are rules of this project, applied to the answers.
use crate::cut_codes::{EndedIn, ended_in, units_of_each_end};
use crate::definition_units::{Answer, AnswerOfBoth, D, answer_of_both, timing, vps_of};
use crate::draft::{Draft, unit_of_rbsp};
use crate::judges::{Judges, Rule};
use crate::list::{List, put_number};
use crate::record::{Reading, read, record_of, structure_of};
use crate::show::unit_of;
use crate::structures::{mode_of, shapes};
use crate::units::{CUT_IN_CODE, Unit, Units};
use bitstream::nal::ebsp_to_rbsp;
use std::collections::BTreeMap;

// A stream of units, and how many of it are taken: at most so many of a kind with the same answer, and so many with the
// same answer.
struct Stream {
    seed: u64,
    shortest: usize,
    longest: usize,
    each: usize,
    most: usize,
}

const STREAMS: [Stream; 2] = [
    Stream { seed: 0x5650_5311, shortest: 0, longest: 64, each: 24, most: 150 },
    Stream { seed: 0x5650_5312, shortest: 65, longest: 400, each: 4, most: 20 },
];

// So many units of a stream are looked at.
const LENGTH: usize = 60_000;

// The replay program's buffers: bytes of a record's content, bytes of a unit, numbers of a record.
const CONTENT: usize = 16_384;
const UNIT: usize = 65_792;
const RECORD: usize = 8_192;

const MOST_RBSP: usize = 65_535;

struct Case {
    // the last byte is there so many times more
    unit: Vec<u8>,
    again: usize,
    work: usize,
    record: usize,
}

pub fn list() -> List {
    let mut cases: BTreeMap<Answer, Vec<Vec<u8>>> = BTreeMap::new();
    for case in all_cases() {
        let (answer, content) = case.recorded();
        cases.entry(answer).or_default().push(content);
    }
    let mut list = List::new(CONTENT);
    for (answer, contents) in &cases {
        contents.iter().for_each(|content| list.case(1, content));
        list.end_of_kind(&name(answer));
    }
    list
}

// How many accepted cases show each shape.
pub fn shapes_shown() -> String {
    let mut shown: BTreeMap<&str, usize> = BTreeMap::new();
    for case in cases_of_streams() {
        let (Answer::Accepted(_), _) = case.recorded() else { continue };
        let v = structure_of(&case.whole_unit()).expect("it is accepted");
        for name in shapes(&v, &record_of(&v)) {
            *shown.entry(name).or_default() += 1;
        }
    }
    shown.iter().map(|(name, count)| format!("{name}: {count}\n")).collect()
}

// How many cases of each rule and answer have a unit that is set aside, so that the answer is the second judge's.
pub fn set_aside() -> String {
    let mut counts: BTreeMap<(Rule, Answer), usize> = BTreeMap::new();
    for case in all_cases() {
        if let Some(rule) = Judges::of(&case.whole_unit()).set_aside() {
            *counts.entry((rule, case.recorded().0)).or_default() += 1;
        }
    }
    counts.iter().map(|((rule, answer), count)| format!("{}: {}: {count}\n", rule.name(), name(answer))).collect()
}

// How many cases end in each code, by what is there of it.
pub fn cut() -> String {
    let mut counts: BTreeMap<EndedIn, usize> = BTreeMap::new();
    for case in all_cases() {
        if let Some(ended_in) = ended_in(&case.whole_unit()) {
            *counts.entry(ended_in).or_default() += 1;
        }
    }
    counts.iter().map(|((code, how), count)| format!("{}: {how}: {count}\n", code.0)).collect()
}

fn name(answer: &Answer) -> String {
    match answer {
        Answer::Refused(number) => format!("refused {number}"),
        Answer::Accepted(mode) => mode.name().to_string(),
    }
}

// ── Cases ───────────────────────────────────────────────────────────────

impl Case {
    fn whole_unit(&self) -> Vec<u8> {
        let mut unit = self.unit.clone();
        unit.extend(vec![self.unit.last().copied().unwrap_or(0); self.again]);
        unit
    }

    // The answer, and the content of its record in the list.
    fn recorded(&self) -> (Answer, Vec<u8>) {
        let unit = self.whole_unit();
        let reading = read(&unit);
        let headed = !matches!(reading, Reading::Refused(1 | 2));
        let rbsp = if headed { ebsp_to_rbsp(&unit[2..]) } else { Vec::new() };
        let untouched = !headed || rbsp.len() > MOST_RBSP || self.work < rbsp.len();
        let (answer, number, length, bits, numbers) = match reading {
            _ if rbsp.len() > MOST_RBSP => (Answer::Refused(3), 3, 0, 0, Vec::new()),
            _ if self.work < rbsp.len() => (Answer::Refused(4), 4, 0, 0, Vec::new()),
            Reading::Refused(number) => (Answer::Refused(number), number, 0, 0, Vec::new()),
            Reading::Accepted { record, .. } if self.record < record.len() => {
                (Answer::Refused(30), 30, record.len(), 0, Vec::new())
            }
            Reading::Accepted { record, bits_used } => {
                (Answer::Accepted(mode_of(&record)), 0, record.len(), bits_used, record)
            }
        };
        assert!(
            unit.len() <= UNIT && self.work <= UNIT && self.record <= RECORD,
            "the program's buffers are long enough"
        );
        // of an RBSP with bytes that are there again, the part before them
        let said = if untouched { &rbsp[..0] } else { &rbsp[..rbsp.len() - self.again] };
        let mut content = vec![number as u8];
        for value in [length, bits, self.work, self.record, self.again] {
            content.extend((value as u32).to_be_bytes());
        }
        for bytes in [&self.unit, said] {
            content.extend((bytes.len() as u16).to_be_bytes());
            content.extend(bytes);
        }
        numbers.iter().for_each(|&n| put_number(&mut content, n));
        (answer, content)
    }
}

fn all_cases() -> impl Iterator<Item = Case> {
    cases_of_streams().into_iter().chain(long_cases()).chain(cut_cases())
}

// Units of the streams with room to spare or just enough, and some of them with less.
fn cases_of_streams() -> Vec<Case> {
    let mut cases = Vec::new();
    for stream in &STREAMS {
        for (i, unit) in chosen(stream).into_iter().enumerate() {
            let rbsp = if unit.bytes.len() < 2 { 0 } else { ebsp_to_rbsp(&unit.bytes[2..]).len() };
            let numbers = match read(&unit.bytes) {
                Reading::Accepted { record, .. } => record.len(),
                Reading::Refused(_) => [0, 1, 200][i % 3],
            };
            let case = |work, record| Case { unit: unit.bytes.clone(), again: 0, work, record };
            cases.push(case(rbsp + [0, 1, 9][i % 3], numbers + [0, 3, 1][i % 3]));
            if i % 8 == 0 && rbsp > 0 {
                cases.push(case([rbsp - 1, rbsp / 2, 0][i / 8 % 3], numbers));
            }
            if i % 4 == 1 && numbers > 0 {
                cases.push(case(rbsp, [numbers - 1, numbers / 2, 0][i / 4 % 3]));
            }
        }
    }
    cases
}

// Units that are made to end in a code have cases of their own.
fn chosen(stream: &Stream) -> Vec<Unit> {
    let mut units = Units::new(stream.seed, stream.longest);
    let others = std::iter::repeat_with(|| units.next()).filter(|unit| unit.kind != CUT_IN_CODE);
    let mut of_kind: BTreeMap<(&str, AnswerOfBoth), usize> = BTreeMap::new();
    let mut of_answer: BTreeMap<AnswerOfBoth, usize> = BTreeMap::new();
    let mut taken = Vec::new();
    for unit in others.take(LENGTH) {
        if unit.bytes.len() < stream.shortest {
            continue;
        }
        let answer = answer_of_both(&Judges::of(&unit.bytes));
        let of_this_kind = of_kind.entry((unit.kind, answer)).or_default();
        let of_this_answer = of_answer.entry(answer).or_default();
        if *of_this_kind < stream.each && *of_this_answer < stream.most {
            *of_this_kind += 1;
            *of_this_answer += 1;
            taken.push(unit);
        }
    }
    taken
}

// Around the longest RBSP: an accepted unit of one layer, the same with id 0, one of two layers, one that is refused, and
// one of another type, each followed by bytes of ones up to a length of the RBSP; extension bits that end in 0, and none,
// followed by zeros; and tables that go on as long as ones do.
fn long_cases() -> Vec<Case> {
    let mut cases = Vec::new();
    let named = [
        "0071100000030233000040ff",
        "0071000003000233000040ff",
        "0071104000480002330000fc90ff",
        "0071100000030233000041ff",
        "00791000ff",
        "00711000000302330000d000",
        "007110000003023300008000",
    ];
    let named = named.map(|hex| unit_of(hex).expect("pairs of hexadecimal digits"));
    for unit in named.into_iter().chain([begun_tables()]) {
        let begun = ebsp_to_rbsp(&unit[2..]).len();
        for length in [MOST_RBSP - 1, MOST_RBSP, MOST_RBSP + 1, MOST_RBSP + 200] {
            for work in [length - 1, length, MOST_RBSP] {
                cases.push(Case { unit: unit.clone(), again: length - begun, work, record: 64 });
            }
        }
    }
    cases
}

// 256 sets of two layers and as many timing entries of seven sublayers, each with 32 schedules of both kinds: up to the
// first entry, and from there on ones, which are codes and flags. Where the ones end, a code is cut.
fn begun_tables() -> Vec<u8> {
    let mut v = vps_of(D);
    v.vps_max_sublayers_minus1 = 6;
    v.vps_ols_mode_idc = 2;
    v.vps_ols_output_layer_flags = vec![vec![1, 1]; 256];
    v.ptls[0].ptl.ptl_sublayer_level_present_flag = vec![0; 6];
    v.ols_dpbs = vec![v.ols_dpbs[0].clone(); 256];
    let mut t = timing(1, 1, 1, 32);
    t.vps_sublayer_cpb_params_present_flag = 1;
    t.entries = vec![t.entries[0].clone(); 256];
    v.timing_hrd = Some(t);
    let draft = Draft::of(&v);
    let mut w = draft.written(draft.places("fixed_pic_rate_general_flag")[0]);
    (w.bit_pos() % 8..16).for_each(|_| w.write_bit(1));
    unit_of_rbsp(&w.finish())
}

// So many units of each code and of each way in which the RBSP ends in it; with room to spare or just enough.
const ENDED_EACH: usize = 3;
const ENDED_LONGEST: usize = 64;

fn cut_cases() -> Vec<Case> {
    let case = |(i, unit): (usize, Vec<u8>)| {
        let work = ebsp_to_rbsp(&unit[2..]).len() + [0, 1, 9][i % 3];
        Case { unit, again: 0, work, record: [0, 1, 200][i % 3] }
    };
    units_of_each_end(0x5650_5313, ENDED_LONGEST, ENDED_EACH).into_iter().enumerate().map(case).collect()
}
