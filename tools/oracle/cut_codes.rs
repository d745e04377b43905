// Units whose RBSP ends inside a code, or with its last bit.
use crate::cut_rule::{AtEnd, LEFT, NAMES, Name};
use crate::draft::{Draft, unit_of_rbsp};
use crate::judges::{Judges, Rule};
use crate::random::Random;
use crate::structures::{MODES, Maker};
use std::collections::BTreeMap;

// ── An end in a code ────────────────────────────────────────────────────

// So many whole bytes are left at most: room for 32 zeros and more.
pub const MOST_BYTES: usize = 4;

// What is left for a code: so many bits, the first of them zeros, and behind these a one, if there are more.
#[derive(Clone, Copy)]
pub struct End {
    bits: usize,
    zeros: usize,
}

// Every number of zeros with which the code isn't shorter than what is left: the begun byte's rest and so many whole bytes.
// With the fewest zeros in an odd number of bits the code ends with the RBSP.
pub fn ends(start: usize, bytes: usize) -> impl Iterator<Item = End> {
    let bits = start.next_multiple_of(8) - start + 8 * bytes;
    (bits / 2..=bits).map(move |zeros| End { bits, zeros })
}

// The items before a code, and then that end with random bits behind the one.
pub fn unit_ending(draft: &Draft, place: usize, end: End, random: &mut Random) -> Vec<u8> {
    let mut w = draft.written(place);
    (0..end.zeros).for_each(|_| w.write_bit(0));
    if end.zeros < end.bits {
        w.write_bit(1);
        (end.zeros + 1..end.bits).for_each(|_| w.write_bit(random.below(2) as u32));
    }
    unit_of_rbsp(&w.finish())
}

// ── Ends in every code ──────────────────────────────────────────────────

// A code's name, and what is there of it.
pub type EndedIn = (Name, &'static str);

// The code that the end cuts, or that ends with the RBSP, of a unit whose id isn't 0.
pub fn ended_in(unit: &[u8]) -> Option<EndedIn> {
    let judges = Judges::of(unit);
    match judges.set_aside() {
        Some(Rule::CutCode) => judges.cut(unit).map(|cut| (cut.name, cut.left.name())),
        Some(_) => None,
        None => judges.code_at_end().map(|(name, how)| (name, how.name())),
    }
}

// Every code cut in every way, and 32 zeros for it with the RBSP's last bit. A whole code is the last one of some names
// alone: behind the others another code is read.
fn asked_ends() -> Vec<EndedIn> {
    let hows = LEFT.map(|left| left.name()).into_iter().chain([AtEnd::TooLong.name()]);
    NAMES.iter().flat_map(|&code| hows.clone().map(move |how| (code, how))).collect()
}

// So many units of each end, of codes that are whole too, and none longer than the limit; no more are sought when there are
// enough of each end that is asked for.
pub fn units_of_each_end(seed: u64, longest: usize, each: usize) -> Vec<Vec<u8>> {
    let mut maker = Maker { random: Random::new(seed), small: true };
    let mut taken: BTreeMap<EndedIn, Vec<Vec<u8>>> = BTreeMap::new();
    let mut modes = MODES.iter().cycle();
    let asked = asked_ends();
    while asked.iter().any(|end| taken.get(end).is_none_or(|units| units.len() < each)) {
        let draft = Draft::of(&maker.structure(*modes.next().expect("they come again")));
        let mut made = one_of_each_end(&draft, &mut maker.random);
        made.retain(|_, unit| unit.len() <= longest);
        made.into_iter().for_each(|(end, unit)| take(taken.entry(end).or_default(), unit, each));
    }
    taken.into_values().flatten().collect()
}

fn take(units: &mut Vec<Vec<u8>>, unit: Vec<u8>, each: usize) {
    if units.len() < each && !units.contains(&unit) {
        units.push(unit);
    }
}

// Of the units that end in a code of a draft at most one for each code and each way.
fn one_of_each_end(draft: &Draft, random: &mut Random) -> BTreeMap<EndedIn, Vec<u8>> {
    let units: Vec<Vec<u8>> = NAMES.iter().flat_map(|code| ending_in(draft, code.0, random)).collect();
    // more zeros than 32 don't end with the RBSP
    units.into_iter().filter_map(|unit| Some((ended_in(&unit)?, unit))).collect()
}

// Every end in one of a draft's codes of a name. The judge gives that name to the code that is cut at its place.
fn ending_in(draft: &Draft, code: &str, random: &mut Random) -> Vec<Vec<u8>> {
    let places = draft.places(code);
    if places.is_empty() {
        return Vec::new();
    }
    let place = places[random.below(places.len())];
    let start = draft.written(place).bit_pos();
    let ends = (0..=MOST_BYTES).flat_map(|bytes| ends(start, bytes));
    let units: Vec<Vec<u8>> = ends.map(|end| unit_ending(draft, place, end, random)).collect();
    for unit in &units {
        let cut = Judges::of(unit).cut(unit);
        assert!(cut.is_none_or(|cut| cut.place != start || cut.name.0 == code), "the judge names the code {code}");
    }
    units
}
