// Sections: vps_section against the trailer of a record that is well formed, and the empty part at the end otherwise.
use crate::calls;
use crate::report::{shown, Answer, Report};
use judge::id_rule::refuses_list;
use judge::random::Random;

const BEFORE: u64 = 0xdead_beef_0000_0001;

pub struct Sections {
    random: Random,
}

impl Sections {
    pub fn new(seed: u64) -> Self {
        Self { random: Random::new(seed) }
    }

    // Every section and some greater numbers, of a list of which it is known whether it is well formed.
    pub fn compare(&mut self, record: &[u32], well_formed: bool, report: &mut Report) {
        let random = self.random.number() as u32;
        for number in (0..=8).chain([9, 10, 255, 1 << 31, u32::MAX, random]) {
            let (call, start, end) = if number > 8 {
                ("vps_section over 8", record.len(), record.len())
            } else if !well_formed {
                let call = if refuses_list(record) {
                    "vps_section of a list with id 0"
                } else {
                    "vps_section of a broken list"
                };
                (call, record.len(), record.len())
            } else {
                let (start, end) = part(record, number as usize);
                ("vps_section of a record", start, end)
            };
            self.call(call, record, number, (start as u64, (end - start) as u64), report);
        }
    }

    fn call(&mut self, call: &'static str, record: &[u32], number: u32, part: (u64, u64), report: &mut Report) {
        let (mut start, mut count) = (BEFORE, BEFORE);
        let answer = calls::section(record, number, &mut start, &mut count);
        report.answer(call, Answer::Success);
        if answer != 0 || (start, count) != part {
            report.difference(|| {
                format!(
                    "vps_section {number} of {}\nexpected number 0, start {}, count {}\ngiven    number {answer}, start {start}, count {count}",
                    shown(record),
                    part.0,
                    part.1
                )
            });
        }
    }
}

// Where a section of a well-formed record starts and ends: General at 0, the next seven where the trailer says, and the
// trailer is the last eight numbers.
fn part(record: &[u32], number: usize) -> (usize, usize) {
    let trailer = &record[record.len() - 8..];
    let mut places = vec![0];
    places.extend(trailer[..7].iter().map(|&place| place as usize));
    places.extend([record.len() - 8, record.len()]);
    (places[number], places[number + 1])
}
