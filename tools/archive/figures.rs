// Rates, sizes and intervals: vps_bit_rate, vps_buffer_size and vps_picture_interval against the second judge, which has the
// request written out (judge::figures).
use crate::buffers::{Guarded, Pattern};
use crate::calls;
use crate::counts::Figured;
use crate::report::{shown, Answer, Report};
use bitstream::h266::VvcVps;
use judge::figures::{
    bit_rate, buffer_size, is_rounded, picture_interval, schedule_count, schedules, stored_sublayers, sublayers, Item,
    Missing, ITEM_MISSING, MOST_INTERVAL, MOST_RATE, MOST_SIZE, NAL, VCL,
};
use judge::random::Random;

const NOT_WELL_FORMED: u32 = 31;

// Each call goes through the whole record. The calls for what a record has go through about so many numbers, and so do those
// for what it has not: of a longer record fewer items are asked for, but never fewer than the least.
const MOST_NUMBERS: usize = 5_000;
const LEAST_ASKED: usize = 8;

#[derive(Clone, Copy)]
enum Figure {
    Rate,
    Size,
    // of an item's sublayer
    Interval,
}

impl Figure {
    fn call(self) -> &'static str {
        match self {
            Figure::Rate => "vps_bit_rate",
            Figure::Size => "vps_buffer_size",
            Figure::Interval => "vps_picture_interval",
        }
    }
}

const FIGURES: [Figure; 3] = [Figure::Rate, Figure::Size, Figure::Interval];

type Asked = (Figure, Item);

// The judge's answer: a figure, an interval that is missing, or 33.
type Judged = Result<Option<u128>, Missing>;

// What a call is to leave: the number, and what it stores.
#[derive(Clone, Copy)]
struct Left {
    number: u32,
    known: Option<u32>,
    figure: Option<u64>,
}

pub struct Figures {
    random: Random,
    known: Guarded<u32>,
    figure: Guarded<u64>,
}

impl Figures {
    pub fn new(seed: u64) -> Self {
        Self { random: Random::new(seed), known: Guarded::new(), figure: Guarded::new() }
    }

    // The figures of a list, which is well formed if it has a structure: of what it has, of what is just past each end, and
    // of any item.
    pub fn compare(&mut self, list: &[u32], vps: Option<&VvcVps>, report: &mut Report) {
        let most = (MOST_NUMBERS / list.len().max(1)).max(LEAST_ASKED);
        let there = self.some(there(vps), most);
        let past = self.past(vps);
        let past = self.some(past, most);
        let any = [self.any()];
        for asked in there.into_iter().chain(past).chain(any) {
            self.call(list, vps, asked, report);
        }
    }

    // All of few; of many the first, the last, and a choice of the others.
    fn some(&mut self, all: Vec<Asked>, most: usize) -> Vec<Asked> {
        if all.len() <= most {
            return all;
        }
        let others = (2..most).map(|_| all[self.random.below(all.len())]);
        [all[0], all[all.len() - 1]].into_iter().chain(others).collect()
    }

    // What is just past an end: the entry behind the last, of each entry the sublayer behind the last, and of each sublayer
    // the schedule behind the last of each kind, which is the first where the flag is 0, and a kind that is none.
    fn past(&mut self, vps: Option<&VvcVps>) -> Vec<Asked> {
        let timing = vps.and_then(|v| v.timing_hrd.as_ref());
        let entries = timing.map_or(0, |timing| timing.entries.len() as u32);
        let behind_all = self.first(entries, 0);
        let mut asked = FIGURES.map(|figure| (figure, behind_all)).to_vec();
        let Some((v, timing)) = vps.zip(timing) else { return asked };
        for (entry, e) in (0..).zip(&timing.entries) {
            let behind = self.first(entry, stored_sublayers(timing, e));
            asked.extend([(Figure::Interval, behind), self.either_of(behind)]);
        }
        let ends = [NAL, VCL].map(|kind| (kind, schedule_count(timing, kind).unwrap_or(0)));
        for (entry, sublayer) in sublayers(v) {
            for (kind, schedule) in ends.into_iter().chain([(VCL + 1, 0)]) {
                asked.push(self.either_of(Item { entry, sublayer, kind, schedule }));
            }
        }
        asked
    }

    fn first(&mut self, entry: u32, sublayer: u32) -> Item {
        Item { entry, sublayer, kind: [NAL, VCL][self.random.below(2)], schedule: 0 }
    }

    fn either_of(&mut self, item: Item) -> Asked {
        ([Figure::Rate, Figure::Size][self.random.below(2)], item)
    }

    fn any(&mut self) -> Asked {
        let mut number = || match self.random.below(4) {
            0 => self.random.number() as u32,
            1 => u32::MAX - self.random.below(2) as u32,
            _ => self.random.below(4) as u32,
        };
        let item = Item { entry: number(), sublayer: number(), kind: number(), schedule: number() };
        (FIGURES[self.random.below(3)], item)
    }

    fn call(&mut self, list: &[u32], vps: Option<&VvcVps>, (figure, item): Asked, report: &mut Report) {
        let left = left(vps, (figure, item), report);
        let salt = self.random.number() as u32;
        let (known, value) = (&mut self.known.lend(1, salt)[0], &mut self.figure.lend(1, salt)[0]);
        let Item { entry, sublayer, kind, schedule } = item;
        let number = match figure {
            Figure::Rate => calls::bit_rate(list, entry, sublayer, kind, schedule, value),
            Figure::Size => calls::buffer_size(list, entry, sublayer, kind, schedule, value),
            Figure::Interval => calls::picture_interval(list, entry, sublayer, known, value),
        };
        let name = figure.call();
        report.answer(name, if left.number == 0 { Answer::Success } else { Answer::Refused(left.number) });
        let stored = self.known.holds(left.known.as_slice()) && self.figure.holds(left.figure.as_slice());
        if number != left.number || !stored {
            let given = Left { number, known: changed(&self.known), figure: changed(&self.figure) };
            report.difference(|| {
                format!(
                    "{name} of entry {entry}, sublayer {sublayer}, kind {kind}, schedule {schedule}: {}\nexpected {}\ngiven    {}",
                    shown(list),
                    text(left),
                    text(given)
                )
            });
        }
    }
}

// All that is there.
fn there(vps: Option<&VvcVps>) -> Vec<Asked> {
    let Some(v) = vps else { return Vec::new() };
    let interval = |(entry, sublayer)| (Figure::Interval, Item { entry, sublayer, kind: NAL, schedule: 0 });
    let both = |item| [(Figure::Rate, item), (Figure::Size, item)];
    sublayers(v).into_iter().map(interval).chain(schedules(v).into_iter().flat_map(both)).collect()
}

// ── What is answered ────────────────────────────────────────────────────

// What a call is to leave, counted by what it shows.
fn left(vps: Option<&VvcVps>, asked: Asked, report: &mut Report) -> Left {
    let refused = |number| Left { number, known: None, figure: None };
    let Some(v) = vps else { return refused(NOT_WELL_FORMED) };
    let judged = judged(v, asked);
    count(v, asked, judged, report);
    let Ok(figure) = judged else { return refused(ITEM_MISSING) };
    let stored = u64::try_from(figure.unwrap_or(0)).expect("a figure fits 64 bits");
    let known = matches!(asked.0, Figure::Interval).then_some(u32::from(figure.is_some()));
    Left { number: 0, known, figure: Some(stored) }
}

fn judged(v: &VvcVps, (figure, item): Asked) -> Judged {
    match figure {
        Figure::Rate => bit_rate(v, item).map(Some),
        Figure::Size => buffer_size(v, item).map(Some),
        Figure::Interval => picture_interval(v, item.entry, item.sublayer),
    }
}

// What an answer of the judge shows.
fn count(v: &VvcVps, (figure, item): Asked, judged: Judged, report: &mut Report) {
    let mut add = |shown: bool, what: Figured| {
        if shown {
            report.figured(what);
        }
    };
    let schedule = if item.kind == NAL { Figured::OfNal } else { Figured::OfVcl };
    match (figure, judged) {
        (_, Err(missing)) => add(true, Figured::Refused(missing)),
        (Figure::Interval, Ok(interval)) => {
            add(interval.is_none(), Figured::NoInterval);
            add(interval.is_some(), Figured::Interval);
            add(is_rounded(v, item.entry, item.sublayer), Figured::IntervalRounded);
            add(interval == Some(0), Figured::IntervalOfZero);
            add(interval == Some(MOST_INTERVAL), Figured::MostInterval);
        }
        (Figure::Rate, Ok(rate)) => {
            add(true, schedule);
            add(rate == Some(MOST_RATE), Figured::MostRate);
        }
        (Figure::Size, Ok(size)) => {
            add(true, schedule);
            add(size == Some(MOST_SIZE), Figured::MostSize);
        }
    }
}

// What stands there now, if a call has changed anything.
fn changed<T: Pattern>(lent: &Guarded<T>) -> Option<T> {
    (!lent.holds(&[])).then(|| lent.now()[0])
}

fn text(left: Left) -> String {
    let words = |number: Option<u64>| number.map_or("as before".to_string(), |number| number.to_string());
    format!("number {}, known {}, figure {}", left.number, words(left.known.map(u64::from)), words(left.figure))
}
