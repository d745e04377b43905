// The list that crates/records_replay replays: records of all kinds with the judges' bytes or 31, each with a length of
// the output. The Rust has no output: 32 is a rule of this project, applied to the answers; 31 is said first.
use crate::broken::{
    CONSTRAINTS, COUNTS, Changing, EXTENSION, OTHER_CONSTRAINTS, OTHER_EXTENSION, RULES, UNCODED, settle,
};
use crate::changed_records::changed;
use crate::draft::{Coded, Draft};
use crate::id_rule::list_with_id_zero;
use crate::judges::Rule;
use crate::list::{List, put_number};
use crate::random::Random;
use crate::record::{self, Reading, read, record_of, structure_of, written};
use crate::record_numbers::{Coding, Number, numbers_of};
use crate::show::unit_of;
use crate::structures::{MODES, Maker, mode_of, shapes};
use bitstream::h266::{VvcVps, VvcVpsLayer, parse_vps, write_vps};
use std::collections::{BTreeMap, BTreeSet, HashSet};

const SEED: u64 = 0x5650_5321;

// So many small structures are looked at, and so many others.
const SMALL: usize = 6_000;
const OTHERS: usize = 3_000;

// The most numbers of a small structure's record that is changed.
const MOST_CHANGED: usize = 150;

// How many cases there are at most of a way in a kind.
const WELL_FORMED_EACH: usize = 300;
const OTHER_ROOM_EACH: usize = 400;
const NUMBER_EACH: usize = 3;
const COUNT_EACH: usize = 4;
const RULE_EACH: usize = 24;
const STRUCTURE_EACH: usize = 16;
const LENGTH_EACH: usize = 40;
const RANDOM_EACH: usize = 1_400;
const LONGER_EACH: usize = 24;
const LONGEST_EACH: usize = 3;

// One well-formed record in so many comes with id 0 too.
const ONE_IN: usize = 5;

// So many cases of a kind come from a structure.
const OF_A_STRUCTURE: usize = 6;

// The replay program's buffers: bytes of a case's content, numbers of a record and bytes of an output; and those of a
// case that is long.
const CONTENT: usize = 16_384;
const RECORD: usize = 8_192;
const OUTPUT: usize = 4_096;
const LONG_RECORD: usize = 524_800;
const LONG_OUTPUT: usize = 66_048;

const MOST_RBSP: usize = 65_535;

// An element that is there so often in a row is stored once.
const RUN: usize = 16;

// What a writer is to say.
#[derive(Clone, Copy, PartialEq, Eq, PartialOrd, Ord)]
enum Answer {
    Written,
    Refused(u32),
}

impl Answer {
    fn name(self) -> String {
        match self {
            Answer::Written => "written".to_string(),
            Answer::Refused(number) => format!("refused {number}"),
        }
    }
}

struct Case {
    kind: String,
    // how it was made
    way: String,
    record: Vec<u32>,
    room: usize,
}

// The kinds in the order of the list.
fn kinds() -> Vec<String> {
    let mut kinds: Vec<String> =
        ["well formed", "more room", "short output", "limits", "id 0"].map(String::from).to_vec();
    kinds.extend(["other value", "width", "inferred", "uncoded part"].map(String::from));
    let numbers: BTreeSet<u32> = RULES.iter().map(|rule| rule.number).collect();
    kinds.extend(numbers.iter().map(|number| format!("rule {number}")));
    kinds.extend(["count", "entries", "constraints", "extension", "trailer"].map(String::from));
    kinds.extend(["longer", "shorter", "cut", "short list", "random"].map(String::from));
    kinds
}

pub fn list() -> List {
    let mut answered: BTreeMap<(usize, Answer), Vec<(u8, Vec<u8>)>> = BTreeMap::new();
    let kinds = kinds();
    for case in cases() {
        let order = kinds.iter().position(|kind| *kind == case.kind).expect("a kind of the list");
        let (answer, tag, content) = case.recorded();
        answered.entry((order, answer)).or_default().push((tag, content));
    }
    let mut list = List::new(CONTENT);
    for ((order, answer), contents) in &answered {
        contents.iter().for_each(|(tag, content)| list.case(*tag, content));
        list.end_of_kind(&format!("{}, {}", kinds[*order], answer.name()));
    }
    list
}

// How many cases of each rule and answer have a record that is set aside, so that the answer is the second judge's.
pub fn set_aside() -> String {
    let mut counts: BTreeMap<(Rule, Answer), usize> = BTreeMap::new();
    for case in cases() {
        if let Some(rule) = record::set_aside(&case.record) {
            *counts.entry((rule, case.recorded().0)).or_default() += 1;
        }
    }
    counts.iter().map(|((rule, answer), count)| format!("{}: {}: {count}\n", rule.name(), answer.name())).collect()
}

// How many cases that are written show each shape, and how many each way of making has.
pub fn shapes_shown() -> String {
    let mut shown: BTreeMap<&str, usize> = BTreeMap::new();
    let mut ways: BTreeMap<(String, String), [usize; 2]> = BTreeMap::new();
    for case in cases() {
        let (answer, ..) = case.recorded();
        let well_formed = answer == Answer::Written;
        ways.entry((case.kind, case.way)).or_default()[usize::from(!well_formed)] += 1;
        if well_formed && case.record.len() <= RECORD {
            let v = structure_of(&written(&case.record).expect("it is written")).expect("it is read back");
            for name in shapes(&v, &case.record) {
                *shown.entry(name).or_default() += 1;
            }
        }
    }
    let mut text: String = shown.iter().map(|(name, count)| format!("{name}: {count}\n")).collect();
    for ((kind, way), [well_formed, refused]) in &ways {
        text += &format!("{kind}: {way}: written {well_formed}, refused {refused}\n");
    }
    text
}

// ── Cases ───────────────────────────────────────────────────────────────

impl Case {
    // The answer, and the tag and content of its record in the list.
    fn recorded(&self) -> (Answer, u8, Vec<u8>) {
        let unit = written(&self.record);
        let (answer, number, unit) = match unit {
            None => (Answer::Refused(31), 31, Vec::new()),
            Some(unit) if self.room < unit.len() => (Answer::Refused(32), 32, Vec::new()),
            Some(unit) => (Answer::Written, 0, unit),
        };
        let long = self.record.len() > RECORD || self.room > OUTPUT;
        assert!(self.record.len() <= LONG_RECORD && self.room <= LONG_OUTPUT, "the program's buffers are long enough");
        let numbers = Stored::of(&self.record);
        let bytes = Stored::of(&unit);
        let mut content = Vec::new();
        for value in [
            number,
            self.room,
            self.record.len(),
            numbers.place,
            numbers.more,
            bytes.place,
            bytes.more,
            bytes.elements.len(),
        ] {
            put_number(&mut content, value as u32);
        }
        content.extend(&bytes.elements);
        numbers.elements.iter().for_each(|&n| put_number(&mut content, n));
        (answer, if long { 2 } else { 1 }, content)
    }
}

// Elements of which the one at a place is there so many times more.
struct Stored<T> {
    place: usize,
    more: usize,
    elements: Vec<T>,
}

impl<T: Clone + PartialEq> Stored<T> {
    // The longest run is stored as one element.
    fn of(all: &[T]) -> Self {
        let mut start = 0;
        let mut best = (0, 0);
        for i in 0..all.len() {
            if all[i] != all[start] {
                start = i;
            }
            if i - start > best.1 {
                best = (start, i - start);
            }
        }
        let (place, more) = if best.1 + 1 >= RUN { best } else { (0, 0) };
        let rest = all.get(place + 1 + more..).unwrap_or(&[]);
        let elements = if all.is_empty() { Vec::new() } else { [&all[..=place], rest].concat() };
        Self { place, more, elements }
    }
}

struct Cases {
    random: Random,
    seen: HashSet<(Vec<u32>, usize)>,
    // how many cases a way has
    taken: BTreeMap<(String, String), usize>,
    cases: Vec<Case>,
}

fn cases() -> Vec<Case> {
    let mut cases =
        Cases { random: Random::new(SEED), seen: HashSet::new(), taken: BTreeMap::new(), cases: Vec::new() };
    let mut maker = Maker { random: Random::new(SEED + 1), small: true };
    for i in 0..SMALL {
        cases.of_small(i, &maker.structure(MODES[i % MODES.len()]));
    }
    let mut maker = Maker { random: Random::new(SEED + 2), small: false };
    for i in 0..OTHERS {
        cases.of_other(&maker.structure(MODES[i % MODES.len()]));
    }
    cases.limits();
    cases.long();
    cases.short_lists();
    cases.with_id_zero();
    cases.cases
}

impl Cases {
    fn below(&mut self, limit: usize) -> usize {
        self.random.below(limit)
    }

    // Takes a case, unless it is there or its way has so many.
    fn add(&mut self, kind: &str, way: &str, most: usize, record: Vec<u32>, room: usize) -> bool {
        let taken = self.taken.entry((kind.to_string(), way.to_string())).or_default();
        if *taken >= most || !self.seen.insert((record.clone(), room)) {
            return false;
        }
        *taken += 1;
        self.cases.push(Case { kind: kind.to_string(), way: way.to_string(), record, room });
        true
    }

    // Takes a changed record: with just enough room if it is well formed, else with some room or none.
    fn add_changed(&mut self, kind: &str, way: &str, most: usize, record: Vec<u32>) -> bool {
        let room = match written(&record) {
            Some(unit) => unit.len(),
            None => [0, 1, 2, 40, 64, 300][self.random.below(6)],
        };
        self.add(kind, way, most, record, room)
    }

    fn of_small(&mut self, i: usize, v: &VvcVps) {
        let record = record_of(v);
        let unit = written(&record).expect("the structure is written and read back");
        let numbers = numbers_of(v);
        assert!(numbers.iter().map(|number| number.value).eq(record.iter().copied()), "the numbers are the record's");
        assert_eq!(coded_numbers(&numbers), coded_items(v), "the coded numbers are the items that the Rust writes");
        let mode = MODES[i % MODES.len()].name();
        if unit.len() > 64 {
            return;
        }
        self.add("well formed", mode, WELL_FORMED_EACH, record.clone(), unit.len());
        match i / MODES.len() % 4 {
            1 => {
                let room = unit.len() + [1, 2, 3, 9, 250][self.below(5)];
                self.add("more room", mode, OTHER_ROOM_EACH / MODES.len(), record.clone(), room);
            }
            3 => {
                let room = [unit.len() - 1, unit.len() - 1, unit.len() - 2, unit.len() / 2, 2, 1, 0][self.below(7)];
                self.add("short output", mode, OTHER_ROOM_EACH / MODES.len(), record.clone(), room);
            }
            _ => {}
        }
        self.structures(v);
        if record.len() <= MOST_CHANGED {
            self.numbers(&record, &numbers);
            self.lengths(&record);
            let other = changed(&mut self.random, &record);
            self.add_changed("random", "changed", RANDOM_EACH, other);
        }
    }

    // Structures with more layers, rows, PTLs, schedules and bits.
    fn of_other(&mut self, v: &VvcVps) {
        let record = record_of(v);
        if record.len() > RECORD {
            return;
        }
        let unit = written(&record).expect("the structure is written and read back");
        let mode = mode_of(&record).name();
        let (way, most) = match unit.len() {
            0..=64 => return,
            65..=400 => (format!("{mode}, longer"), LONGER_EACH),
            401..=OUTPUT => (format!("{mode}, longest"), LONGEST_EACH),
            _ => return,
        };
        if self.add("well formed", &way, most, record.clone(), unit.len()) {
            self.add("short output", &way, most / 3, record.clone(), unit.len() - 1);
            let other = changed(&mut self.random, &record);
            self.add_changed("random", &way, most / 2, other);
        }
    }

    // ── Other numbers ──

    fn numbers(&mut self, record: &[u32], numbers: &[Number]) {
        let mut places: BTreeMap<(&str, &str), Vec<usize>> = BTreeMap::new();
        for (place, number) in numbers.iter().enumerate() {
            for kind in kinds_of(number) {
                places.entry((kind, number.name)).or_default().push(place);
            }
        }
        let mut of_this: BTreeMap<&str, usize> = BTreeMap::new();
        for ((kind, name), places) in places {
            let place = places[self.below(places.len())];
            let others = others(kind, &numbers[place]);
            let (how, value) = others[self.below(others.len())];
            let count = of_this.entry(kind).or_default();
            let most = if matches!(kind, "count" | "trailer") { COUNT_EACH } else { NUMBER_EACH };
            if *count < OF_A_STRUCTURE && value != record[place] && !self.is_full(kind, name, how, most) {
                let mut other = record.to_vec();
                other[place] = value;
                if self.add_changed(kind, &format!("{name} {how}"), most, other) {
                    *count += 1;
                }
            }
        }
    }

    fn is_full(&self, kind: &str, name: &str, how: &str, most: usize) -> bool {
        self.taken.get(&(kind.to_string(), format!("{name} {how}"))).is_some_and(|&taken| taken >= most)
    }

    // ── Other structures ──

    fn structures(&mut self, v: &VvcVps) {
        for rule in &RULES {
            let kind = format!("rule {}", rule.number);
            let mut other = v.clone();
            if self.below(4) == 0 && (rule.change)(&mut other, &mut self.random).is_some() {
                let coded = read(&Draft::of(&other).unit());
                assert!(coded == Reading::Refused(rule.number), "the rule is the first that is broken: {kind}");
                self.add_changed(&kind, "structure", RULE_EACH, record_of(&other));
            }
        }
        self.changed_structures("uncoded part", &UNCODED, &[false], v);
        self.changed_structures("entries", &COUNTS, &[false, true], v);
        self.changed_structures("constraints", &CONSTRAINTS, &[false], v);
        self.changed_structures("constraints", &OTHER_CONSTRAINTS, &[true], v);
        self.changed_structures("extension", &EXTENSION, &[false], v);
        self.changed_structures("extension", &OTHER_EXTENSION, &[true], v);
    }

    // The changes of a table, and whether what they make is well formed.
    fn changed_structures(&mut self, kind: &str, changes: &[Changing], well_formed: &[bool], v: &VvcVps) {
        for Changing { what, change } in changes {
            let mut other = v.clone();
            if self.below(4) == 0 && change(&mut other, &mut self.random).is_some() {
                let record = record_of(&other);
                assert!(well_formed.contains(&written(&record).is_some()), "the change does as its table says: {what}");
                self.add_changed(kind, what, STRUCTURE_EACH, record);
            }
        }
    }

    // ── Other lengths ──

    fn lengths(&mut self, record: &[u32]) {
        let end = record.len();
        let value = [0, 1, 2, u32::MAX, end as u32 + 1][self.below(5)];
        let place = self.below(end);
        let section = self.below(7);
        match self.below(8) {
            0 => {
                let other = behind_trailer(record, value);
                self.add("longer", "behind the trailer, with the length", LENGTH_EACH, other, 64);
                self.add_changed("longer", "at the end", LENGTH_EACH, with(record, end, value))
            }
            1 => self.add_changed("longer", "before the trailer", LENGTH_EACH, with(record, end - 8, value)),
            2 => self.add_changed("longer", "at any place", LENGTH_EACH, with(record, place, value)),
            3 => self.add_changed("longer", "a section, with the trailer", LENGTH_EACH, longer(record, section, value)),
            4 => self.add_changed("shorter", "at the end", LENGTH_EACH, without(record, end - 1)),
            5 => self.add_changed("shorter", "at any place", LENGTH_EACH, without(record, place)),
            6 => match shorter(record, section) {
                Some(other) => self.add_changed("shorter", "a section, with the trailer", LENGTH_EACH, other),
                None => false,
            },
            _ => self.add_changed("cut", "at any place", LENGTH_EACH, record[..place].to_vec()),
        };
    }

    fn short_lists(&mut self) {
        let one_layer = record_of(&one_layer());
        for length in 0..=20 {
            let random = (0..length).map(|_| self.below(3) as u32).collect();
            for (way, numbers) in [
                ("zeros", vec![0; length]),
                ("ones", vec![1; length]),
                ("of one layer", one_layer[..length].to_vec()),
                ("random", random),
                ("huge", vec![u32::MAX; length]),
            ] {
                self.add_changed("short list", way, 21, numbers);
            }
        }
    }

    // ── Id 0 ──

    // Well-formed records again with id 0, and with as much room or as little: 31 each time.
    fn with_id_zero(&mut self) {
        let kinds = ["well formed", "more room", "short output", "limits"];
        let good =
            self.cases.iter().filter(|case| kinds.contains(&case.kind.as_str()) && written(&case.record).is_some());
        let others: Vec<_> = good
            .step_by(ONE_IN)
            .filter_map(|case| Some((case.kind.clone(), list_with_id_zero(&case.record)?, case.room)))
            .collect();
        for (way, record, room) in others {
            self.add("id 0", &way, usize::MAX, record, room);
        }
    }

    // ── Limits ──

    // As many of each as there may be, and one more.
    fn limits(&mut self) {
        for count in [2, 63, 64, 65, 66] {
            self.limit("layers", &each_a_set(count));
        }
        for count in [1, 255, 256, 257, 258] {
            self.limit("rows", &with_rows(count));
        }
        for count in [1, 2, 255, 256, 257, 258] {
            let mut v = with_rows(256);
            let mut another = v.ptls[0].clone();
            another.vps_pt_present_flag = 0;
            another.ptl.general_profile_idc = None;
            another.ptl.general_tier_flag = None;
            v.ptls.resize(count, another);
            settle(&mut v);
            self.limit("PTLs", &v);
        }
        for count in [1, 254, 255, 256, 257] {
            let mut v = one_layer();
            v.ptls[0].ptl.general_sub_profile_idc = (0..count).map(|i| i << 24 | i).collect();
            self.limit("sub-profiles", &v);
        }
        for additional in 0..=255 {
            if additional < 10 || additional % 16 == 0 || additional > 250 {
                let mut v = one_layer();
                v.ptls[0].ptl.gci_present_flag = true;
                let mut bits: Vec<bool> = (0..69).map(|_| self.below(2) == 0).collect();
                bits.extend((0..8).rev().map(|k| additional >> k & 1 == 1));
                bits.extend((0..additional).map(|_| self.below(2) == 0));
                v.ptls[0].ptl.gci_bits = bits;
                self.limit("constraints", &v);
            }
        }
    }

    fn limit(&mut self, way: &str, v: &VvcVps) {
        self.add_changed("limits", way, usize::MAX, record_of(v));
    }

    // Around the longest RBSP, by extension bits of ones, the last of them a zero or not; and a long run of zeros before a
    // one and behind a one.
    fn long(&mut self) {
        for hex in ["0071100000030233000040", "0071104000480002330000fc90"] {
            let v = parse_vps(&unit_of(hex).expect("digits")).expect("a unit that is accepted");
            let most = most_bits(&v);
            for count in [most - 8, most - 7, most, most + 1, most + 8] {
                self.longest("RBSP", &with_bits(&v, vec![1; count]));
            }
            for count in [most, most + 1] {
                let mut bits = vec![1; count];
                bits[count - 1] = 0;
                self.longest("RBSP, a zero at the end", &with_bits(&v, bits));
            }
            for zeros in [15, 16, 17, 1_000, 20_000] {
                let mut bits = vec![0; zeros + 1];
                bits[zeros] = 1;
                self.limit("zeros", &with_bits(&v, bits.clone()));
                bits.reverse();
                self.limit("zeros at the end", &with_bits(&v, bits));
            }
        }
    }

    // With just enough room and with a byte less, or with all room and with none.
    fn longest(&mut self, way: &str, v: &VvcVps) {
        let record = record_of(v);
        let rooms = match written(&record) {
            Some(unit) => [unit.len(), unit.len() - 1],
            None => [LONG_OUTPUT, 0],
        };
        for room in rooms {
            self.add("limits", way, usize::MAX, record.clone(), room);
        }
    }
}

// ── Numbers ─────────────────────────────────────────────────────────────

// The kinds of change that a number takes.
fn kinds_of(number: &Number) -> Vec<&'static str> {
    match number.coding {
        Coding::Field(32) => vec!["other value"],
        Coding::Code if number.name == "hrd_cpb_cnt_minus1" => vec!["other value", "width", "count"],
        Coding::Field(_) | Coding::Code => vec!["other value", "width"],
        Coding::Inferred => vec!["inferred"],
        Coding::Count => vec!["count"],
        Coding::Trailer => vec!["trailer"],
    }
}

// Other values for a number: within its width, out of it, or not the one that it must have.
fn others(kind: &str, number: &Number) -> Vec<(&'static str, u32)> {
    let value = number.value;
    let further = [("+ 256", value.wrapping_add(256)), ("+ 2^31", value ^ 1 << 31), ("2^32 - 1", u32::MAX)];
    let near = [("+ 1", value.wrapping_add(1)), ("- 1", value.wrapping_sub(1)), ("0", 0)];
    match (kind, number.coding) {
        ("other value", Coding::Field(width)) => {
            vec![("with another last bit", value ^ 1), ("0", 0), ("at its greatest", u32::MAX >> (32 - width))]
        }
        ("other value", _) => {
            vec![("+ 1", value.wrapping_add(1).min(u32::MAX - 1)), ("0", 0), ("at its greatest", u32::MAX - 1)]
        }
        ("width", Coding::Field(width)) => {
            let over = [("at its limit", 1 << width), ("with its low bits", value + (1 << width))];
            [over.as_slice(), &further].concat()
        }
        ("width", _) => vec![("2^32 - 1", u32::MAX)],
        _ => [near.as_slice(), &further].concat(),
    }
}

type CodedNumber = (&'static str, Option<u32>, u32);

// Name, width and value of what is coded, in the order of names.
fn coded_numbers(numbers: &[Number]) -> Vec<CodedNumber> {
    let mut coded: Vec<CodedNumber> = numbers
        .iter()
        .filter_map(|number| match number.coding {
            Coding::Field(width) => Some((number.name, Some(width), number.value)),
            Coding::Code => Some((number.name, None, number.value)),
            _ => None,
        })
        .collect();
    coded.sort();
    coded
}

// Items that are no numbers of the record, or one less than a count.
const NO_NUMBERS: [&str; 7] = [
    "vps_max_layers_minus1",
    "vps_num_output_layer_sets_minus2",
    "vps_num_ptls_minus1",
    "ptl_num_sub_profiles",
    "vps_num_dpb_params_minus1",
    "vps_num_ols_timing_hrd_params_minus1",
    "rbsp_stop_one_bit",
];

fn coded_items(v: &VvcVps) -> Vec<CodedNumber> {
    let mut coded: Vec<CodedNumber> = Draft::of(v)
        .items
        .iter()
        .filter(|item| !NO_NUMBERS.contains(&item.name))
        .filter_map(|item| match item.coded {
            Coded::Field { width, value } => Some((item.name, Some(width), value)),
            Coded::Code(value) => Some((item.name, None, value)),
            _ => None,
        })
        .collect();
    coded.sort();
    coded
}

// ── Lengths ─────────────────────────────────────────────────────────────

fn with(record: &[u32], place: usize, value: u32) -> Vec<u32> {
    let mut other = record.to_vec();
    other.insert(place, value);
    other
}

fn without(record: &[u32], place: usize) -> Vec<u32> {
    let mut other = record.to_vec();
    other.remove(place);
    other
}

// A number more behind the trailer, and a total length that says so.
fn behind_trailer(record: &[u32], value: u32) -> Vec<u32> {
    let mut other = with(record, record.len(), value);
    other[record.len() - 1] += 1;
    other
}

// A number more at the end of a section behind General, and a trailer that says so.
fn longer(record: &[u32], section: usize, value: u32) -> Vec<u32> {
    let starts = record.len() - 8;
    let end = if section == 6 { starts } else { record[starts + section + 1] as usize };
    let mut other = with(record, end, value);
    other[starts + 1 + section + 1..].iter_mut().for_each(|start| *start += 1);
    other
}

// The last number of a section less, if it has several, and a trailer that says so.
fn shorter(record: &[u32], section: usize) -> Option<Vec<u32>> {
    let starts = record.len() - 8;
    let start = record[starts + section] as usize;
    let end = if section == 6 { starts } else { record[starts + section + 1] as usize };
    if end - start < 2 {
        return None;
    }
    let mut other = without(record, end - 1);
    other[starts - 1 + section + 1..].iter_mut().for_each(|start| *start -= 1);
    Some(other)
}

// ── Structures ──────────────────────────────────────────────────────────

fn one_layer() -> VvcVps {
    parse_vps(&unit_of("0071100000030233000040").expect("digits")).expect("a unit that is accepted")
}

// So many independent layers, each a set.
fn each_a_set(count: usize) -> VvcVps {
    let mut v = one_layer();
    let layer = |i: usize| VvcVpsLayer { vps_layer_id: i as u8, vps_independent_layer_flag: 1, ..Default::default() };
    v.layers = (0..count).map(layer).collect();
    settle(&mut v);
    v
}

// Two independent layers and so many rows, of which the first has both.
fn with_rows(count: usize) -> VvcVps {
    let mut v = each_a_set(2);
    let buffers = parse_vps(&unit_of("0071104000480002330000fc90").expect("digits")).expect("a unit that is accepted");
    v.vps_each_layer_is_an_ols_flag = 0;
    v.vps_ols_output_layer_flags = (0..count).map(|i| vec![1, u8::from(i == 0)]).collect();
    v.dpb_params = buffers.dpb_params;
    settle(&mut v);
    v
}

fn with_bits(v: &VvcVps, bits: Vec<u8>) -> VvcVps {
    VvcVps { vps_extension_flag: 1, vps_extension_data: bits, ..v.clone() }
}

// The most extension bits with an RBSP that is not too long.
fn most_bits(v: &VvcVps) -> usize {
    let length = |count: usize| write_vps(&with_bits(v, vec![1; count])).expect("a structure that is written").len();
    let least = 1 + 8 * (MOST_RBSP - length(1));
    (least..least + 8).rev().find(|&count| length(count) == MOST_RBSP).expect("one byte has eight bits")
}
