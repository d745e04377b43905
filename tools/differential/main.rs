// The static archive against the Rust, over many units, records and byte strings: every number that a call returns or stores
// and every lent buffer afterwards; and the sentences of the refusals that were met. What is set aside, extension bits that
// end in 0, ids that are 0 and codes that the end cuts, is held to the second judge, and so are layer pages, rates, sizes
// and intervals. Ends with 1 if anything differs or if an answer was met too seldom.
mod inputs;

use archive::figures::Figures;
use archive::pages::Pages;
use archive::reading::{Judged, Reader};
use archive::report::Report;
use archive::sections::Sections;
use archive::sentences;
use archive::stuffing::Stuffing;
use archive::writing::Writer;
use inputs::{exhaustive, Input, Inputs};
use judge::changed_records::changed;
use judge::id_rule::list_with_id_zero;
use judge::random::Random;
use judge::record::Reading;
use judge::structures::shapes;
use std::process::ExitCode;
use std::time::Instant;

const SEED: u64 = 0x5650_5321;
const UNITS: usize = 3_000_000;

// One unit in so many is a long one.
const LONG: usize = 4_000;

// One record in so many comes with id 0 too.
const ID_ZERO: usize = 16;

fn main() -> ExitCode {
    let arguments: Vec<String> = std::env::args().skip(1).collect();
    let Some((seed, units)) = settings(&arguments) else {
        eprintln!("usage: differential [--seed N] [--units N]");
        return ExitCode::from(2);
    };
    println!("seed {seed}, units {units}");
    let began = Instant::now();
    let mut run = Run::new(seed);
    run.units(units);
    run.lists(units / 100);
    run.stuffing.compare_all(units / 20, &mut run.report);
    sentences::compare_all(&mut run.report);
    let good = run.report.finish();
    println!("seed {seed}, units {units}, seconds {}", began.elapsed().as_secs());
    if good {
        ExitCode::SUCCESS
    } else {
        ExitCode::FAILURE
    }
}

fn settings(arguments: &[String]) -> Option<(u64, usize)> {
    let (mut seed, mut units) = (SEED, UNITS);
    for pair in arguments.chunks(2) {
        match pair {
            [name, value] if name == "--seed" => seed = value.parse().ok()?,
            [name, value] if name == "--units" => units = value.parse().ok()?,
            _ => return None,
        }
    }
    Some((seed, units))
}

struct Run {
    random: Random,
    inputs: Inputs,
    reader: Reader,
    writer: Writer,
    pages: Pages,
    figures: Figures,
    sections: Sections,
    stuffing: Stuffing,
    report: Report,
    // records that were met, for lists that are not well formed
    records: Vec<Vec<u32>>,
}

impl Run {
    fn new(seed: u64) -> Self {
        let mut random = Random::new(seed);
        let mut next = || random.number();
        let (inputs, reader, writer) = (Inputs::new(next()), Reader::new(next()), Writer::new(next()));
        let (sections, stuffing) = (Sections::new(next()), Stuffing::new(next()));
        let (pages, figures) = (Pages::new(next()), Figures::new(next()));
        let (report, records) = (Report::default(), Vec::new());
        Self { random, inputs, reader, writer, pages, figures, sections, stuffing, report, records }
    }

    // All short units, and then so many in all.
    fn units(&mut self, count: usize) {
        let mut done = 0;
        for input in exhaustive() {
            self.unit(&input, false);
            done += 1;
        }
        while done < count {
            if done % LONG == 0 {
                self.long_unit();
            } else {
                let input = self.inputs.next();
                self.unit(&input, false);
            }
            done += 1;
        }
    }

    fn long_unit(&mut self) {
        for input in [self.inputs.long(), self.inputs.long_with_id_zero(), self.inputs.long_and_cut()] {
            self.unit(&input, true);
        }
    }

    fn unit(&mut self, input: &Input, long: bool) {
        self.report.input("unit", input.kind);
        let judged = Judged::of(&input.unit);
        let every = long || self.random.below(8) == 0;
        self.reader.compare(&input.unit, &judged, every, &mut self.report);
        if self.random.below(16) == 0 {
            self.stuffing.compare("unit", &input.unit, &mut self.report);
        }
        if let (Reading::Accepted { record, .. }, Ok((vps, _))) = (judged.reading, judged.judges.found()) {
            shapes(vps, &record).into_iter().for_each(|name| self.report.shape(name));
            self.list("record of a unit", &record, every);
            for _ in 0..if long { 1 } else { 2 } {
                let other = changed(&mut self.random, &record);
                self.list("changed record", &other, every);
            }
            if let Some(other) = list_with_id_zero(&record).filter(|_| self.random.below(ID_ZERO) == 0) {
                self.list("record with id 0", &other, every);
            }
            if record.len() < 400 && self.records.len() < 4_096 {
                self.records.push(record);
            }
        }
    }

    // A list of numbers, well formed or not: written, its page, its figures, and its sections.
    fn list(&mut self, kind: &'static str, list: &[u32], every: bool) {
        self.report.input("list", kind);
        let vps = self.writer.compare(list, every, &mut self.report);
        self.pages.compare(list, vps.as_ref(), &mut self.report);
        self.figures.compare(list, vps.as_ref(), &mut self.report);
        if every || self.random.below(4) == 0 {
            self.sections.compare(list, vps.is_some(), &mut self.report);
        }
    }

    fn changed_twice(&mut self, record: &[u32]) -> Vec<u32> {
        let once = changed(&mut self.random, record);
        if once.is_empty() {
            once
        } else {
            changed(&mut self.random, &once)
        }
    }

    // Lists that are far from well formed: cut behind each number, put together of two, of random numbers.
    fn lists(&mut self, count: usize) {
        let records = std::mem::take(&mut self.records);
        for i in 0..count {
            let record = &records[self.random.below(records.len())];
            let other = &records[self.random.below(records.len())];
            let list = match i % 4 {
                0 => (0..self.random.below(60)).map(|_| self.random.below(3) as u32).collect(),
                1 => (0..self.random.below(60)).map(|_| self.random.number() as u32).collect(),
                2 => [&record[..self.random.below(record.len())], &other[self.random.below(other.len())..]].concat(),
                _ => self.changed_twice(record),
            };
            self.list(
                ["small numbers", "random numbers", "splice of two records", "changed twice"][i % 4],
                &list,
                i % 8 < 4,
            );
        }
        for record in records.iter().take(count / 200) {
            (0..record.len()).for_each(|end| self.list("cut record", &record[..end], false));
        }
    }
}
