// The list that crates/sections_replay replays: records, and for each the parts that section lookup is to give. Where the
// sections of a well-formed record are comes from the lengths that the sections of its structure have one by one.
// That every other list, and every number over 8, gives the empty part at the end is a rule of this project.
use crate::changed_records::changed;
use crate::id_rule::list_with_id_zero;
use crate::judges::Rule;
use crate::list::{List, put_number};
use crate::random::Random;
use crate::record::{self, record_of, section_lengths, structure_of, written};
use crate::structures::{MODES, Maker, Mode};
use std::collections::{BTreeMap, HashSet};

const SEED: u64 = 0x5345_4354;

// The replay program's buffers: bytes of a case's content, and numbers of a record.
const CONTENT: usize = 4_096;
const RECORD: usize = 1_024;

// The numbers that are asked for: the nine sections, and others, some with a section's number in their low bits.
const ASKED: [u32; 18] = [0, 1, 2, 3, 4, 5, 6, 7, 8, 9, 10, 16, 255, 256, 264, 65_536, 1 << 31, u32::MAX];

// So many small structures of each mode, and so many others.
const SMALL_EACH: usize = 40;
const OTHERS_EACH: usize = 12;

// The most numbers of a record that is changed.
const MOST_CHANGED: usize = 120;

// How many changed records there are of each kind.
const CHANGED_EACH: usize = 120;
const TRAILER_EACH: usize = 6;

// One well-formed record in so many comes with id 0 too.
const ONE_IN: usize = 4;

pub fn list() -> List {
    let mut list = List::new(CONTENT);
    for (name, records) in kinds() {
        records.iter().for_each(|(record, well_formed)| case(&mut list, record, *well_formed));
        list.end_of_kind(name);
    }
    list
}

// How many records each rule sets aside, so that the second judge says whether they are well formed.
pub fn set_aside() -> String {
    let mut counts: BTreeMap<(Rule, &str), usize> = BTreeMap::new();
    for (list, good) in kinds().into_iter().flat_map(|(_, records)| records) {
        if let Some(rule) = record::set_aside(&list) {
            *counts.entry((rule, if good { "well formed" } else { "not well formed" })).or_default() += 1;
        }
    }
    counts.iter().map(|((rule, words), count)| format!("{}: {words}: {count}\n", rule.name())).collect()
}

// A record, and whether it is well formed.
type Case = (Vec<u32>, bool);

fn kinds() -> Vec<(&'static str, Vec<Case>)> {
    let mut kinds = Vec::new();
    let mut small = Vec::new();
    let mut with_id_zero = Vec::new();
    for mode in MODES {
        let records = records_of(mode);
        with_id_zero.extend(records.iter().step_by(ONE_IN).filter_map(|record| list_with_id_zero(record)));
        small.extend(records.iter().filter(|record| record.len() <= MOST_CHANGED).cloned());
        kinds.push((mode.name(), records.into_iter().map(|record| (record, true)).collect()));
    }
    let [good, broken] = changed_records(&small);
    kinds.push(("other value", good.into_iter().map(|record| (record, true)).collect()));
    kinds.push(("not well formed", broken.into_iter().map(|record| (record, false)).collect()));
    kinds.push(("trailer", trailers(&small).into_iter().map(|record| (record, false)).collect()));
    kinds.push(("id 0", with_id_zero.into_iter().map(|record| (record, false)).collect()));
    kinds.push(("short list", (0..=24).map(|length| (small[length][..length].to_vec(), false)).collect()));
    kinds
}

fn records_of(mode: Mode) -> Vec<Vec<u32>> {
    let mut records = Vec::new();
    for (small, count) in [(true, SMALL_EACH), (false, OTHERS_EACH)] {
        let mut maker = Maker { random: Random::new(SEED + mode as u64), small };
        let end = records.len() + count;
        while records.len() < end {
            let record = record_of(&maker.structure(mode));
            if record.len() <= RECORD && !records.contains(&record) {
                records.push(record);
            }
        }
    }
    records
}

// Copies with other numbers: those that are well formed all the same, and those that are not.
fn changed_records(small: &[Vec<u32>]) -> [Vec<Vec<u32>>; 2] {
    let mut random = Random::new(SEED);
    let mut seen = HashSet::new();
    let mut kinds = [Vec::new(), Vec::new()];
    while kinds.iter().any(|records| records.len() < CHANGED_EACH) {
        let of = random.below(small.len());
        let record = changed(&mut random, &small[of]);
        let kind = &mut kinds[usize::from(written(&record).is_none())];
        if kind.len() < CHANGED_EACH && seen.insert(record.clone()) {
            kind.push(record);
        }
    }
    kinds
}

// Each number of the trailer one more, one less and 0, by which no other part may be found.
fn trailers(small: &[Vec<u32>]) -> Vec<Vec<u32>> {
    let mut others = Vec::new();
    for record in small.iter().step_by(small.len() / TRAILER_EACH).take(TRAILER_EACH) {
        for i in record.len() - 8..record.len() {
            for value in [record[i] + 1, record[i] - 1, 0] {
                let mut other = record.clone();
                other[i] = value;
                others.push(other);
            }
        }
    }
    others
}

// A case: how many numbers the record has, how many parts are asked, the record's numbers, and the parts: a section's
// number, the index of its first number, and how many there are.
fn case(list: &mut List, record: &[u32], well_formed: bool) {
    let starts = starts_of(record);
    assert_eq!(starts.is_some(), well_formed, "the answer is that of the kind");
    let mut content = Vec::new();
    for n in [record.len() as u32, ASKED.len() as u32].iter().chain(record) {
        put_number(&mut content, *n);
    }
    for asked in ASKED {
        let found = starts.as_ref().and_then(|starts| {
            let start = *starts.get(asked as usize)?;
            Some((start, starts.get(asked as usize + 1)? - start))
        });
        let (start, count) = found.unwrap_or((record.len(), 0));
        for n in [asked, start as u32, count as u32] {
            put_number(&mut content, n);
        }
    }
    list.case(1, &content);
}

// Where each section of a well-formed record starts, and where the last one ends.
fn starts_of(record: &[u32]) -> Option<Vec<usize>> {
    let unit = written(record)?;
    let lengths = section_lengths(&structure_of(&unit).expect("what is written can be read"));
    let mut starts = vec![0];
    for length in lengths {
        starts.push(starts[starts.len() - 1] + length);
    }
    assert_eq!(starts.last(), Some(&record.len()), "the sections are the record");
    Some(starts)
}
