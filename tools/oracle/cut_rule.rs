// The second judge, for codes that the end cuts. The Rust reads zeros for what is missing of a code, and asks nowhere
// whether its place is past the end. Here the Rust reads the unit over a bit reader that asks so behind each code
// (rust/watched_reader.rs), and nothing else is looked at: no rule of a VPS is written out again.
use crate::id_rule::MOST_RBSP;
use crate::refusal::number_of;
use std::collections::BTreeMap;
use std::sync::LazyLock;
use watched::SOURCES;
use watched::bit_reader::{BitReader, Code, Seen, Taken, watching};
use watched::h266::parse_vps;

// The refusal of a code whose last bit lies past the RBSP: where it is read, before the limit of its value.
pub const CODE_PAST_END: u32 = 35;

// 32 zeros are refused with another number.
const MOST_ZEROS: usize = 31;

// ── The rule ────────────────────────────────────────────────────────────

// The Rust's reading of a unit over that reader: the number with which it ends, and the codes that it comes to.
pub struct Watched {
    pub refused: Option<u32>,
    seen: Seen,
}

impl Watched {
    pub fn of(unit: &[u8]) -> Self {
        let (vps, seen) = watching(|| parse_vps(unit));
        Self { refused: vps.err().map(|error| number_of(&error)), seen }
    }

    // The first code that the end cuts, in an RBSP that isn't too long.
    fn first_cut(&self) -> Option<&Code> {
        self.seen.cut.as_ref().filter(|code| code.total <= 8 * MOST_RBSP)
    }

    pub fn refuses(&self) -> bool {
        self.first_cut().is_some()
    }

    // Whether there is one in an RBSP that is too long.
    pub fn cut_too_late(&self) -> bool {
        self.seen.cut.is_some() && !self.refuses()
    }

    // Where the first one is, in a unit's RBSP.
    pub fn cut(&self, rbsp: &[u8]) -> Option<Cut> {
        self.first_cut().map(|code| Cut { name: name_of(code), place: code.start, left: left(code, rbsp) })
    }

    // The name of the last code and what it is, if its end and the RBSP's are the same: not cut, but nearly so.
    pub fn at_end(&self) -> Option<(Name, AtEnd)> {
        let last = self.seen.last.filter(|code| code.end == code.total)?;
        match last.taken {
            Taken::Whole => Some((name_of(&last), AtEnd::Whole)),
            Taken::TooLong => Some((name_of(&last), AtEnd::TooLong)),
            Taken::Cut => None,
        }
    }
}

// Whether a unit is refused with 35, where it is refused at all and not before a code is read.
pub fn refuses_unit(unit: &[u8]) -> bool {
    Watched::of(unit).refuses()
}

// Whether the end cuts the code at a place.
pub fn cuts_code(bytes: &[u8], place: u64) -> bool {
    let mut reader = BitReader::new(bytes);
    reader.skip(place as usize);
    watching(|| reader.ue()).1.cut.is_some()
}

// ── What is counted ─────────────────────────────────────────────────────

// A code that is cut: its name, the bit of the RBSP at which it begins, and what is there of it.
#[derive(Clone, Copy)]
pub struct Cut {
    pub name: Name,
    pub place: usize,
    pub left: Left,
}

#[derive(Clone, Copy, PartialEq, Eq, PartialOrd, Ord)]
pub enum Left {
    Nothing,
    // no one
    Zeros,
    MostZeros,
    // no suffix
    One,
    // at least two bits are missing
    SomeOfSuffix,
    AllButLastBit,
}

pub const LEFT: [Left; 6] =
    [Left::Nothing, Left::Zeros, Left::MostZeros, Left::One, Left::SomeOfSuffix, Left::AllButLastBit];

impl Left {
    pub fn name(self) -> &'static str {
        match self {
            Left::Nothing => "nothing",
            Left::Zeros => "zeros, at most 30",
            Left::MostZeros => "31 zeros",
            Left::One => "zeros and the one",
            Left::SomeOfSuffix => "zeros, the one and some of the suffix",
            Left::AllButLastBit => "all but the suffix's last bit",
        }
    }
}

fn left(code: &Code, rbsp: &[u8]) -> Left {
    let is_one = |&bit: &usize| rbsp[bit / 8] >> (7 - bit % 8) & 1 == 1;
    match (code.start..code.total).find(is_one) {
        None if code.start >= code.total => Left::Nothing,
        None if code.total - code.start == MOST_ZEROS => Left::MostZeros,
        None => Left::Zeros,
        Some(one) if one + 1 == code.total => Left::One,
        Some(_) if code.end == code.total + 1 => Left::AllButLastBit,
        Some(_) => Left::SomeOfSuffix,
    }
}

// A last code that ends with the RBSP.
#[derive(Clone, Copy, PartialEq, Eq)]
pub enum AtEnd {
    // its last bit is the RBSP's last
    Whole,
    // 32 zeros and the end
    TooLong,
}

impl AtEnd {
    pub fn name(self) -> &'static str {
        match self {
            AtEnd::Whole => "all of it",
            AtEnd::TooLong => "32 zeros",
        }
    }
}

// A code's name.
#[derive(Clone, Copy, PartialEq, Eq, PartialOrd, Ord)]
pub struct Name(pub &'static str);

// The codes of a VPS in the order of the lines that read them, first those of vps.rs and then those of params.rs.
pub const NAMES: [Name; 17] = [
    Name("vps_ols_ptl_idx"),
    Name("vps_num_dpb_params_minus1"),
    Name("vps_ols_dpb_pic_width"),
    Name("vps_ols_dpb_pic_height"),
    Name("vps_ols_dpb_bitdepth_minus8"),
    Name("vps_ols_dpb_params_idx"),
    Name("vps_num_ols_timing_hrd_params_minus1"),
    Name("vps_ols_timing_hrd_idx"),
    Name("dpb_max_dec_pic_buffering_minus1"),
    Name("dpb_max_num_reorder_pics"),
    Name("dpb_max_latency_increase_plus1"),
    Name("hrd_cpb_cnt_minus1"),
    Name("bit_rate_value_minus1"),
    Name("cpb_size_value_minus1"),
    Name("cpb_size_du_value_minus1"),
    Name("bit_rate_du_value_minus1"),
    Name("elemental_duration_in_tc_minus1"),
];
const OF_VPS: usize = 8;

// By file and line of the Rust.
static LINES: LazyLock<BTreeMap<(&str, u32), Name>> = LazyLock::new(|| {
    let mut lines = BTreeMap::new();
    let (of_vps, of_params) = NAMES.split_at(OF_VPS);
    for ((file, text), names) in SOURCES.iter().zip([of_vps, of_params]) {
        let reading = (1..).zip(text.lines()).filter(|(_, line)| line.contains("r.ue()?"));
        lines.extend(reading.zip(names).map(|((number, _), &name)| ((*file, number), name)));
    }
    lines
});

fn name_of(code: &Code) -> Name {
    let file = code.read_at.file().rsplit('/').next().expect("a file has a name");
    *LINES.get(&(file, code.read_at.line())).expect("a line that reads a code of a VPS")
}
