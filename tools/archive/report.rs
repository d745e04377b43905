// What was compared: counts by call and answer, and the differences.
use crate::counts::{Figured, Paged, Ruled, Tally, LEAST};
use judge::cut_rule::{Cut, Left, Name};
use judge::structures::{Mode, MODES, SHAPES};
use std::collections::{BTreeMap, BTreeSet};

// What a call is counted by: a success, of a mode where there is one, or the refusal's number.
#[derive(Clone, Copy, PartialEq, Eq, PartialOrd, Ord)]
pub enum Answer {
    Success,
    Of(Mode),
    Refused(u32),
}

impl Answer {
    fn name(self) -> String {
        match self {
            Answer::Success => "success".to_string(),
            Answer::Of(mode) => mode.name().to_string(),
            Answer::Refused(number) => format!("refused {number}"),
        }
    }
}

#[derive(Default)]
pub struct Report {
    ruled: Tally<Ruled>,
    cut: Tally<Left>,
    cut_codes: Tally<Name>,
    paged: Tally<Paged>,
    figured: Tally<Figured>,
    answers: BTreeMap<(&'static str, Answer), usize>,
    inputs: BTreeMap<(&'static str, &'static str), usize>,
    shapes: BTreeMap<&'static str, usize>,
    differences: usize,
}

// So many differences are printed.
const PRINTED: usize = 20;

// Of refusal 1, for which there are few units, there have to be so many.
const LEAST_OF_1: usize = 20;

impl Report {
    pub fn answer(&mut self, call: &'static str, answer: Answer) {
        *self.answers.entry((call, answer)).or_default() += 1;
    }

    // An input, by what it is for and how it was made.
    pub fn input(&mut self, what: &'static str, kind: &'static str) {
        *self.inputs.entry((what, kind)).or_default() += 1;
    }

    // What an accepted unit shows.
    pub fn shape(&mut self, name: &'static str) {
        *self.shapes.entry(name).or_default() += 1;
    }

    // An input that the second judge has an answer for.
    pub fn ruled(&mut self, what: Ruled) {
        self.ruled.add(what, 1);
    }

    // The cut code of a unit that is set aside for it.
    pub fn cut(&mut self, cut: Cut) {
        self.cut.add(cut.left, 1);
        self.cut_codes.add(cut.name, 1);
    }

    // So many of what pages show.
    pub fn paged(&mut self, what: Paged, count: usize) {
        self.paged.add(what, count);
    }

    // What a figure or its refusal shows.
    pub fn figured(&mut self, what: Figured) {
        self.figured.add(what, 1);
    }

    pub fn difference(&mut self, words: impl FnOnce() -> String) {
        self.differences += 1;
        if self.differences <= PRINTED {
            println!("DIFFERENCE\n{}", words());
        }
    }

    pub fn differences(&self) -> usize {
        self.differences
    }

    // The numbers of the refusals that were met.
    pub fn refusals(&self) -> BTreeSet<u32> {
        let refused = |answer: &Answer| if let Answer::Refused(number) = answer { Some(*number) } else { None };
        self.answers.keys().filter_map(|(_, answer)| refused(answer)).collect()
    }

    // The counts, what has too few, and whether the run is good.
    pub fn finish(&self) -> bool {
        println!("\n| Input | Made as | Count |\n|---|---|---|");
        for ((what, kind), count) in &self.inputs {
            println!("| {what} | {kind} | {count} |");
        }
        println!("\n| Accepted units with | Count |\n|---|---|");
        for (name, count) in &self.shapes {
            println!("| {name} | {count} |");
        }
        println!("\n| Call | Answer | Count |\n|---|---|---|");
        for ((call, answer), count) in &self.answers {
            println!("| {call} | {} | {count} |", answer.name());
        }
        self.print_second_judge();
        let few = self.too_few();
        few.iter().for_each(|words| println!("TOO FEW: {words}"));
        println!("\ncalls {}, differences {}", self.answers.values().sum::<usize>(), self.differences);
        few.is_empty() && self.differences == 0
    }

    // What was set aside, and what else the second judge has an answer for.
    pub fn print_second_judge(&self) {
        self.ruled.print();
        self.cut.print();
        self.cut_codes.print();
        self.paged.print();
        self.figured.print();
    }

    // What the second judge had too seldom, in short units alone or in all.
    fn few_of_second_judge(&self, short_units: bool) -> Vec<String> {
        let of_cut_codes = [self.cut.few(short_units), self.cut_codes.few(short_units)].concat();
        let others = [self.paged.few(short_units), self.figured.few(short_units)].concat();
        [self.ruled.few(short_units), of_cut_codes, others].concat()
    }

    // What the second judge had too seldom in short units, the answers of what the Rust has not among them.
    pub fn few_of_short_units(&self) -> Vec<String> {
        let asked = [page_answers(), figure_answers(), id_zero_answers(), vec![CUT_CODE_ANSWER]];
        let answers = self.few_answers(asked.concat());
        answers.into_iter().chain(self.few_of_second_judge(true)).collect()
    }

    fn few_answers(&self, expected: Vec<(&'static str, Answer)>) -> Vec<String> {
        let count = |key| self.answers.get(key).copied().unwrap_or(0);
        let least = |answer| if answer == Answer::Refused(1) { LEAST_OF_1 } else { LEAST };
        let short = expected.iter().filter(|key| count(key) < least(key.1));
        short.map(|key| format!("{}, {}: {}", key.0, key.1.name(), count(key))).collect()
    }

    fn too_few(&self) -> Vec<String> {
        let mut few = self.few_answers(expected());
        let shown = |name| self.shapes.get(name).copied().unwrap_or(0);
        few.extend(SHAPES.iter().filter(|name| shown(*name) < LEAST).map(|name| format!("{name}: {}", shown(name))));
        few.extend(self.few_of_second_judge(false));
        few
    }
}

// Every answer that a call has.
fn expected() -> Vec<(&'static str, Answer)> {
    let mut all = Vec::new();
    for call in ["vps_parse", "vps_write"] {
        all.extend(MODES.map(|mode| (call, Answer::Of(mode))));
    }
    all.extend((1..=30).map(|number| ("vps_parse", Answer::Refused(number))));
    all.extend([31, 32].map(|number| ("vps_write", Answer::Refused(number))));
    all.extend(page_answers());
    all.extend(figure_answers());
    for call in ["vps_ebsp_to_rbsp", "vps_rbsp_to_ebsp", "vps_sentence"] {
        all.extend([(call, Answer::Success), (call, Answer::Refused(32))]);
    }
    all.extend(
        ["vps_section of a record", "vps_section over 8", "vps_section of a broken list"]
            .map(|call| (call, Answer::Success)),
    );
    all.extend(id_zero_answers());
    all.push(CUT_CODE_ANSWER);
    all
}

const CUT_CODE_ANSWER: (&str, Answer) = ("vps_parse", Answer::Refused(35));

// A unit with id 0 is refused, and a list with id 0 has no sections.
fn id_zero_answers() -> Vec<(&'static str, Answer)> {
    vec![("vps_parse", Answer::Refused(34)), ("vps_section of a list with id 0", Answer::Success)]
}

// A page of each mode, and its refusals.
fn page_answers() -> Vec<(&'static str, Answer)> {
    let refused = [31, 32].map(Answer::Refused);
    MODES.map(Answer::Of).into_iter().chain(refused).map(|answer| ("vps_layer_page", answer)).collect()
}

fn figure_answers() -> Vec<(&'static str, Answer)> {
    let answers = [Answer::Success, Answer::Refused(31), Answer::Refused(33)];
    let of_call = |call| answers.map(|answer| (call, answer));
    ["vps_bit_rate", "vps_buffer_size", "vps_picture_interval"].into_iter().flat_map(of_call).collect()
}

// The first so many numbers of a list, as text.
pub fn shown(numbers: &[u32]) -> String {
    let words: Vec<String> = numbers.iter().take(4096).map(u32::to_string).collect();
    let rest = if numbers.len() > 4096 { format!(" .. ({} numbers)", numbers.len()) } else { String::new() };
    format!("{}{rest}", words.join(" "))
}
