// What is counted besides answers: what was set aside, and what the second judge's answers show.
use judge::cut_rule::{Left, Name, LEFT, NAMES};
use judge::figures::Missing;
use std::collections::BTreeMap;

// So many there have to be of each, and of each answer.
pub const LEAST: usize = 100;

// Kinds that have a table of their own.
pub trait Counted: Copy + Ord + 'static {
    const HEAD: &'static str;
    const ALL: &'static [Self];

    fn name(self) -> &'static str;

    // Whether short units are to show it too, such as the fuzzer's.
    fn is_of_short_units(self) -> bool {
        true
    }
}

// What the second judge has an answer for. Set aside are units that the Rust refuses with 28 under extension flag 1, and
// lists whose extension ends in 0; of other units with that flag both judges say the same. And units with id 0 that the Rust
// reads past the id, and lists with id 0 that are well formed but for that; and units in which the Rust reads a code that
// the end cuts. What comes before the id or the code is counted beside it, and codes that are nearly cut.
#[derive(Clone, Copy, PartialEq, Eq, PartialOrd, Ord)]
pub enum Ruled {
    UnitAccepted,
    UnitRefused,
    UnitOfBoth,
    ListWritten,
    ListRefused,
    IdZeroAccepted,
    IdZeroSublayers,
    IdZeroRefused,
    IdZeroOfOtherType,
    IdZeroTooLong,
    IdZeroWorkShort,
    IdZeroList,
    CutCodeStopBit,
    CutCodeRefused,
    CutCodeIdZero,
    CutCodeTooLong,
    CutCodeWorkShort,
    CodeOfZerosAtEnd,
    CodeAtEndStopBit,
    CodeAtEndRefused,
}

impl Counted for Ruled {
    const HEAD: &'static str = "| The second judge on | Answer | Count |\n|---|---|---|";
    const ALL: &'static [Ruled] = &[
        Ruled::UnitAccepted,
        Ruled::UnitRefused,
        Ruled::UnitOfBoth,
        Ruled::ListWritten,
        Ruled::ListRefused,
        Ruled::IdZeroAccepted,
        Ruled::IdZeroSublayers,
        Ruled::IdZeroRefused,
        Ruled::IdZeroOfOtherType,
        Ruled::IdZeroTooLong,
        Ruled::IdZeroWorkShort,
        Ruled::IdZeroList,
        Ruled::CutCodeStopBit,
        Ruled::CutCodeRefused,
        Ruled::CutCodeIdZero,
        Ruled::CutCodeTooLong,
        Ruled::CutCodeWorkShort,
        Ruled::CodeOfZerosAtEnd,
        Ruled::CodeAtEndStopBit,
        Ruled::CodeAtEndRefused,
    ];

    // The input and the answer.
    fn name(self) -> &'static str {
        match self {
            Ruled::UnitAccepted => "set aside: unit, 28 by the Rust under extension flag 1 | accepted",
            Ruled::UnitRefused => "set aside: unit, 28 by the Rust under extension flag 1 | refused 28",
            Ruled::UnitOfBoth => "not set aside: other unit with extension flag 1 | as the Rust's",
            Ruled::ListWritten => "set aside: list whose extension ends in 0 | written",
            Ruled::ListRefused => "set aside: list whose extension ends in 0 | refused 31",
            Ruled::IdZeroAccepted => "set aside: unit with id 0, accepted but for that | refused 34",
            Ruled::IdZeroSublayers => "set aside: unit with id 0, 5 by the Rust | refused 34",
            Ruled::IdZeroRefused => "set aside: unit with id 0, another number by the Rust | refused 34",
            Ruled::IdZeroOfOtherType => {
                "not set aside: unit of another type, and 0 where the id stands | as the Rust's, 2"
            }
            Ruled::IdZeroTooLong => "not set aside: call for id 0 and an RBSP over 65,535 bytes | refused 3",
            Ruled::IdZeroWorkShort => "not set aside: call for id 0 with a work buffer too short | refused 4",
            Ruled::IdZeroList => "set aside: list with id 0, well formed but for that | refused 31",
            Ruled::CutCodeStopBit => "set aside: unit with a cut code, 27 by the Rust | refused 35",
            Ruled::CutCodeRefused => "set aside: unit with a cut code, another number by the Rust | refused 35",
            Ruled::CutCodeIdZero => "set aside: unit with id 0 and a cut code | refused 34",
            Ruled::CutCodeTooLong => "not set aside: call for a cut code in an RBSP over 65,535 bytes | refused 3",
            Ruled::CutCodeWorkShort => "not set aside: call for a cut code with a work buffer too short | refused 4",
            Ruled::CodeOfZerosAtEnd => "not set aside: unit that ends in 32 zeros for a code | as the Rust's, 14",
            Ruled::CodeAtEndStopBit => "not set aside: unit that ends with its last code | as the Rust's, 27",
            Ruled::CodeAtEndRefused => {
                "not set aside: unit that ends with a code whose value is refused | as the Rust's, another number"
            }
        }
    }

    // The longest units are made for the purpose, and so are those that end with a whole code.
    fn is_of_short_units(self) -> bool {
        let long = matches!(self, Ruled::IdZeroTooLong | Ruled::CutCodeTooLong);
        !long && !matches!(self, Ruled::CodeAtEndStopBit | Ruled::CodeAtEndRefused)
    }
}

// What is there of the code that the end cuts, in units that are set aside for it.
impl Counted for Left {
    const HEAD: &'static str = "| Cut codes, by what there is | Count |\n|---|---|";
    const ALL: &'static [Left] = &LEFT;

    fn name(self) -> &'static str {
        self.name()
    }

    // Just so many zeros are made for the purpose.
    fn is_of_short_units(self) -> bool {
        self != Left::MostZeros
    }
}

// Which code that is.
impl Counted for Name {
    const HEAD: &'static str = "| Cut codes | Count |\n|---|---|";
    const ALL: &'static [Name] = &NAMES;

    fn name(self) -> &'static str {
        self.0
    }

    // Some are seldom read.
    fn is_of_short_units(self) -> bool {
        false
    }
}

// What layer pages that are right show.
#[derive(Clone, Copy, PartialEq, Eq, PartialOrd, Ord)]
pub enum Paged {
    Page,
    MostLayers,
    MostSets,
    Line,
    LineOfTwoSteps,
}

impl Counted for Paged {
    const HEAD: &'static str = "| Layer pages | Count |\n|---|---|";
    const ALL: &'static [Paged] =
        &[Paged::Page, Paged::MostLayers, Paged::MostSets, Paged::Line, Paged::LineOfTwoSteps];

    fn name(self) -> &'static str {
        match self {
            Paged::Page => "pages compared whole",
            Paged::MostLayers => "pages of 64 layers",
            Paged::MostSets => "pages of 257 sets",
            Paged::Line => "lines",
            Paged::LineOfTwoSteps => "lines with a layer that is two steps away or more",
        }
    }

    // The longest pages are of longer ones.
    fn is_of_short_units(self) -> bool {
        !matches!(self, Paged::MostLayers | Paged::MostSets)
    }
}

// What the answers to a planner show: rates, sizes and intervals, and why an item is missing.
#[derive(Clone, Copy, PartialEq, Eq, PartialOrd, Ord)]
pub enum Figured {
    OfNal,
    OfVcl,
    MostRate,
    MostSize,
    Interval,
    IntervalRounded,
    IntervalOfZero,
    MostInterval,
    NoInterval,
    Refused(Missing),
}

impl Counted for Figured {
    const HEAD: &'static str = "| Figures | Count |\n|---|---|";
    const ALL: &'static [Figured] = &[
        Figured::OfNal,
        Figured::OfVcl,
        Figured::MostRate,
        Figured::MostSize,
        Figured::Interval,
        Figured::IntervalRounded,
        Figured::IntervalOfZero,
        Figured::MostInterval,
        Figured::NoInterval,
        Figured::Refused(Missing::Timing),
        Figured::Refused(Missing::Entry),
        Figured::Refused(Missing::Sublayer),
        Figured::Refused(Missing::SublayerOfOne),
        Figured::Refused(Missing::Kind),
        Figured::Refused(Missing::Schedule),
        Figured::Refused(Missing::OtherKind),
    ];

    fn name(self) -> &'static str {
        match self {
            Figured::OfNal => "rates and sizes of NAL schedules",
            Figured::OfVcl => "rates and sizes of VCL schedules",
            Figured::MostRate => "the greatest rate",
            Figured::MostSize => "the greatest size",
            Figured::Interval => "intervals",
            Figured::IntervalRounded => "intervals that are not whole",
            Figured::IntervalOfZero => "intervals rounded down to 0",
            Figured::MostInterval => "the greatest interval",
            Figured::NoInterval => "intervals that are missing",
            Figured::Refused(Missing::Timing) => "33: no timing section",
            Figured::Refused(Missing::Entry) => "33: no such entry",
            Figured::Refused(Missing::Sublayer) => "33: no such sublayer",
            Figured::Refused(Missing::SublayerOfOne) => "33: a sublayer up to the max tid of an entry that stores one",
            Figured::Refused(Missing::Kind) => "33: NAL or VCL flag 0",
            Figured::Refused(Missing::Schedule) => "33: no such schedule",
            Figured::Refused(Missing::OtherKind) => "33: neither NAL nor VCL",
        }
    }

    // The greatest figures are made for the purpose.
    fn is_of_short_units(self) -> bool {
        !matches!(self, Figured::MostRate | Figured::MostSize | Figured::MostInterval)
    }
}

// How many there were of each kind.
pub struct Tally<K>(BTreeMap<K, usize>);

impl<K> Default for Tally<K> {
    fn default() -> Self {
        Self(BTreeMap::new())
    }
}

impl<K: Counted> Tally<K> {
    pub fn add(&mut self, what: K, count: usize) {
        *self.0.entry(what).or_default() += count;
    }

    fn count(&self, what: K) -> usize {
        self.0.get(&what).copied().unwrap_or(0)
    }

    pub fn print(&self) {
        println!("\n{}", K::HEAD);
        K::ALL.iter().for_each(|&what| println!("| {} | {} |", what.name(), self.count(what)));
    }

    // What is there too seldom.
    pub fn few(&self, short_units: bool) -> Vec<String> {
        let asked = K::ALL.iter().filter(|what| !short_units || what.is_of_short_units());
        let few = asked.filter(|&&what| self.count(what) < LEAST);
        few.map(|&what| format!("{}: {}", what.name(), self.count(what))).collect()
    }
}
