// Records of all kinds with the answer that a writer owes: those of accepted units, and copies with other numbers.
use crate::random::Random;
use crate::record::{Reading, read, written};
use crate::show::hex_of;
use crate::units::Units;
use std::collections::HashSet;
use std::fmt::Write;

// A line a record: its numbers, and the unit's bytes or 31. The units are at most so long.
pub fn lines(seed: u64, count: usize, longest: usize) -> String {
    let mut units = Units::new(seed, longest);
    let mut random = Random::new(seed);
    let mut seen = HashSet::new();
    let mut text = String::new();
    let mut printed = 0;
    while printed < count {
        let unit = units.next();
        let Reading::Accepted { record, .. } = read(&unit.bytes) else { continue };
        let mut copies = vec![record.clone()];
        copies.extend((0..8).map(|_| changed(&mut random, &record)));
        for numbers in copies {
            if printed < count && seen.insert(numbers.clone()) {
                printed += 1;
                numbers.iter().for_each(|n| write!(text, "{n} ").expect("a string takes all"));
                match written(&numbers) {
                    Some(unit) => writeln!(text, "written {}", hex_of(&unit)).expect("a string takes all"),
                    None => text.push_str("refused 31\n"),
                }
            }
        }
    }
    text
}

// Another number in one or two places, one more or one less, two of them exchanged, or the end cut off.
pub fn changed(random: &mut Random, record: &[u32]) -> Vec<u32> {
    let mut numbers = record.to_vec();
    let place = random.below(numbers.len());
    match random.below(16) {
        0 => numbers.insert(place, random.below(3) as u32),
        1 => {
            numbers.remove(place);
        }
        2 => numbers.swap(place, random.below(record.len())),
        3 => numbers.truncate(place),
        4 => numbers.push(random.below(100) as u32),
        times => {
            for _ in 0..1 + times % 2 {
                let place = random.below(numbers.len());
                let value = numbers[place];
                let width = random.below(33) as u32;
                numbers[place] =
                    [value.wrapping_add(1), value.wrapping_sub(1), 0, 1, 2, random.of_width(width)][random.below(6)];
            }
        }
    }
    numbers
}
