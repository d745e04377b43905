// Units of all kinds with the judges' answers: structures of every mode as they are written, and damaged copies that
// reach every refusal of the reader.
use crate::cut_codes::{End, MOST_BYTES, ends, unit_ending};
use crate::draft::{Coded, Draft, unit_of_rbsp};
use crate::extension_rule::write_unit;
use crate::id_rule::unit_with_id_zero;
use crate::judges::{Judges, Rule};
use crate::random::Random;
use crate::record::{Reading, read, record_of};
use crate::refusal::numbers;
use crate::show::{hex_of, unit_of};
use crate::structures::{MODES, Maker, shapes};
use bitstream::h266::VvcVps;
use bitstream::nal::ebsp_to_rbsp;
use std::collections::{BTreeMap, HashSet, VecDeque};
use std::fmt::Write;

// ── The stream ──────────────────────────────────────────────────────────

pub struct Unit {
    pub bytes: Vec<u8>,
    // how it was made
    pub kind: &'static str,
}

// Units one after the other, each once and none longer than the limit.
pub struct Units {
    maker: Maker,
    // chooses the units that come with id 0 too
    ids: Random,
    // chooses the codes that the end cuts
    cuts: Random,
    longest: usize,
    bases: usize,
    seen: HashSet<Vec<u8>>,
    pending: VecDeque<Unit>,
}

// One unit in so many comes with id 0 too.
const ID_ZERO: usize = 24;

// The kind of units that end in a code.
pub const CUT_IN_CODE: &str = "cut in a code";

impl Units {
    pub fn new(seed: u64, longest: usize) -> Self {
        let mut units = Self {
            maker: Maker { random: Random::new(seed), small: longest <= 64 },
            ids: Random::new(!seed),
            cuts: Random::new(seed.rotate_left(32)),
            longest,
            bases: 0,
            seen: HashSet::new(),
            pending: VecDeque::new(),
        };
        for hex in NAMED {
            let bytes = unit_of(hex).expect("pairs of hexadecimal digits");
            units.put("named", bytes);
        }
        units
    }

    pub fn next(&mut self) -> Unit {
        loop {
            if let Some(unit) = self.pending.pop_front() {
                return unit;
            }
            self.base();
        }
    }

    fn add(&mut self, kind: &'static str, bytes: Vec<u8>) {
        let with_id_zero = if self.ids.below(ID_ZERO) == 0 { unit_with_id_zero(&bytes) } else { None };
        self.put(kind, bytes);
        if let Some(other) = with_id_zero {
            self.put(if kind == "written" { "id 0" } else { kind }, other);
        }
    }

    fn put(&mut self, kind: &'static str, bytes: Vec<u8>) {
        if bytes.len() <= self.longest && self.seen.insert(bytes.clone()) {
            self.pending.push_back(Unit { bytes, kind });
        }
    }

    fn below(&mut self, limit: usize) -> usize {
        self.maker.random.below(limit)
    }

    // A structure as it is written, and copies of it with damage of each kind.
    fn base(&mut self) {
        let mode = MODES[self.bases % MODES.len()];
        let v = self.maker.structure(mode);
        let unit = write_unit(&v).expect("the structure is written");
        let draft = Draft::of(&v);
        assert!(draft.unit() == unit, "the items are those that are written");
        if unit.len() > self.longest {
            return;
        }
        self.bases += 1;
        self.add("written", unit.clone());
        self.headers(&unit);
        self.flipped(&unit);
        self.appended(&unit);
        self.cut(&unit);
        self.behind_items(&draft);
        self.cut_in_codes(&draft);
        self.alignments(&draft);
        self.forced(&draft);
        for targets in targets(&v, &draft) {
            let chosen = self.below(2 * targets.len());
            if let Some(&(place, coded)) = targets.get(chosen) {
                self.refused(&draft, place, coded);
            }
        }
        self.broken(&v);
    }

    // Other header bytes: the type is in the second byte's upper five bits, and the rest is free.
    fn headers(&mut self, unit: &[u8]) {
        let mut other = unit.to_vec();
        if self.maker.one_in(4) {
            other[0] = self.below(256) as u8;
            other[1] = 0x70 | self.below(8) as u8;
            self.add("header", other);
        } else if self.maker.one_in(8) {
            other[1] = self.below(256) as u8;
            self.add("header", other);
        }
    }

    fn flipped(&mut self, unit: &[u8]) {
        for _ in 0..4 {
            let mut other = unit.to_vec();
            for _ in 0..1 + self.below(2) {
                let bit = 16 + self.below(8 * (unit.len() - 2));
                other[bit / 8] ^= 1 << (bit % 8);
            }
            self.add("flipped", other);
        }
        // before the stuffing, and then stuffed or not
        let mut rbsp = ebsp_to_rbsp(&unit[2..]);
        let bit = self.below(8 * rbsp.len());
        rbsp[bit / 8] ^= 1 << (bit % 8);
        self.add("flipped", unit_of_rbsp(&rbsp));
        self.add("unstuffed", [&[0x00, 0x71], rbsp.as_slice()].concat());
    }

    fn appended(&mut self, unit: &[u8]) {
        let behind = match self.below(5) {
            0 => vec![0],
            1 => vec![0xff],
            2 => vec![0, 0, 3],
            3 => vec![0x80],
            _ => {
                let count = 1 + self.below(4);
                self.maker.random.bytes(count)
            }
        };
        self.add("appended", [unit, &behind].concat());
    }

    // Behind every byte now and then, of a long unit behind some sixty; else behind one.
    fn cut(&mut self, unit: &[u8]) {
        if self.bases % 16 == 1 {
            for length in (0..unit.len()).step_by(unit.len().div_ceil(64)) {
                self.add("cut", unit[..length].to_vec());
            }
        } else {
            let length = 2 + self.below(unit.len() - 2);
            self.add("cut", unit[..length].to_vec());
        }
    }

    // The items up to one of them, and then the end, zeros or ones.
    fn behind_items(&mut self, draft: &Draft) {
        for _ in 0..2 {
            let count = 1 + self.below(draft.items.len());
            let rest = self.below(RESTS.len());
            self.add("cut behind an item", with_rest(draft, count, RESTS[rest]));
        }
    }

    // The items up to a code, and then the end inside the code or with its last bit. Which units come with id 0 too isn't
    // chosen as of the others, so that these stay what they are.
    fn cut_in_codes(&mut self, draft: &Draft) {
        let codes = draft.codes();
        if codes.is_empty() {
            return;
        }
        for _ in 0..2 {
            let place = codes[self.cuts.below(codes.len())];
            let start = draft.written(place).bit_pos();
            let ends: Vec<End> = ends(start, self.cuts.below(MOST_BYTES + 1)).collect();
            let end = ends[self.cuts.below(ends.len())];
            let unit = unit_ending(draft, place, end, &mut self.cuts);
            let with_id_zero = if self.cuts.below(ID_ZERO) == 0 { unit_with_id_zero(&unit) } else { None };
            [Some(unit), with_id_zero].into_iter().flatten().for_each(|unit| self.put(CUT_IN_CODE, unit));
        }
    }

    // Ones in the alignments that are not looked at.
    fn alignments(&mut self, draft: &Draft) {
        let mut other = draft.clone();
        for name in ["gci_alignment_zero_bit", "ptl_reserved_zero_bit"] {
            for place in draft.places(name) {
                if self.maker.one_in(2) {
                    other.items[place].coded = Coded::Alignment(1);
                }
            }
        }
        self.add("alignment", other.unit());
    }

    // Another value for an item or two, in its width.
    fn forced(&mut self, draft: &Draft) {
        for _ in 0..4 {
            let mut other = draft.clone();
            for _ in 0..1 + self.below(2) {
                let place = self.below(other.items.len());
                let coded = &mut other.items[place].coded;
                match *coded {
                    Coded::Field { width, value } => {
                        let values = [0, ((1u64 << width) - 1) as u32, value ^ 1, self.maker.random.of_width(width)];
                        *coded = Coded::Field { width, value: values[self.below(4)] };
                    }
                    Coded::Code(value) => {
                        let values = [0, value + 1, 8, 9, 15, 16, 31, 32, 2047, 2048, u32::MAX - 1, self.maker.code()];
                        *coded = Coded::Code(values[self.below(12)].min(u32::MAX - 1));
                    }
                    _ => {}
                }
            }
            self.add("another value", other.unit());
        }
        let codes = draft.codes();
        if !codes.is_empty() {
            let place = codes[self.below(codes.len())];
            let zeros = 30 + self.below(5) as u32;
            let mut other = draft.clone();
            other.items[place].coded = Coded::Zeros(zeros);
            self.add("zeros for a code", other.unit());
            self.add("zeros for a code", with_rest(&other, place + 1, Rest::End));
        }
    }

    // A refused item, and behind it the rest, the end, zeros or ones: what comes behind must not change the number.
    fn refused(&mut self, draft: &Draft, place: usize, coded: Coded) {
        let mut other = draft.clone();
        other.items[place].coded = coded;
        self.add("refused item", other.unit());
        let rest = self.below(RESTS.len());
        self.add("refused item", with_rest(&other, place + 1, RESTS[rest]));
    }

    // Structures with two faults, or with one that takes more than an item.
    fn broken(&mut self, v: &VvcVps) {
        let mut other = v.clone();
        let dependent: Vec<usize> =
            (0..v.layers.len()).filter(|&i| v.layers[i].vps_independent_layer_flag == 0).collect();
        if !dependent.is_empty() && self.maker.one_in(3) {
            let i = dependent[self.below(dependent.len())];
            other.layers[i].vps_direct_ref_layer_flag.fill(0);
            self.add("no direct reference", Draft::of(&other).unit());
            if i + 1 < v.layers.len() {
                other.layers[i + 1].vps_layer_id = 0;
                self.add("no direct reference", Draft::of(&other).unit());
            }
        }
        if !v.vps_ols_output_layer_flags.is_empty() && self.maker.one_in(2) {
            let mut other = v.clone();
            let i = self.below(other.vps_ols_output_layer_flags.len());
            other.vps_ols_output_layer_flags[i].fill(0);
            let mut draft = Draft::of(&other);
            self.add("no output layer", draft.unit());
            let place = draft.places("vps_num_ptls_minus1")[0];
            draft.items[place].coded = Coded::Field { width: 8, value: 255 };
            self.add("no output layer", draft.unit());
        }
        // rows of single independent layers: no set has several layers
        if !v.vps_ols_output_layer_flags.is_empty() && v.vps_all_independent_layers_flag == 1 && self.maker.one_in(2) {
            let mut other = v.clone();
            for row in &mut other.vps_ols_output_layer_flags {
                row.fill(0);
                row[0] = 1;
            }
            self.add("no multi-layer set", Draft::of(&other).unit());
        }
    }
}

#[derive(Clone, Copy)]
enum Rest {
    End,
    Zeros(usize),
    Ones(usize),
}

const RESTS: [Rest; 5] = [Rest::End, Rest::Zeros(1), Rest::Zeros(5), Rest::Zeros(9), Rest::Ones(2)];

// The first so many items, and then something else.
fn with_rest(draft: &Draft, count: usize, rest: Rest) -> Vec<u8> {
    let mut rbsp = draft.rbsp(count);
    match rest {
        Rest::End => {}
        Rest::Zeros(count) => rbsp.extend(vec![0; count]),
        Rest::Ones(count) => rbsp.extend(vec![255; count]),
    }
    unit_of_rbsp(&rbsp)
}

// ── What is refused ─────────────────────────────────────────────────────

// An item's place and a value for it that is refused.
type Target = (usize, Coded);

// The targets of a draft, those of a name together: the least value that is refused, and a great one.
fn targets(v: &VvcVps, draft: &Draft) -> Vec<Vec<Target>> {
    let most_tid = u32::from(v.vps_max_sublayers_minus1);
    let multi = v.ols_dpbs.len() as u32;
    let slots = v.dpb_params.len() as u32;
    let entries = v.timing_hrd.as_ref().map_or(0, |t| t.entries.len() as u32);
    let put = |place: usize, value: u32| match draft.items[place].coded {
        Coded::Field { width, .. } if u64::from(value) >> width > 0 => None,
        Coded::Field { width, .. } => Some((place, Coded::Field { width, value })),
        Coded::Code(_) => Some((place, Coded::Code(value))),
        Coded::Alignment(_) => Some((place, Coded::Alignment(1))),
        Coded::Zeros(_) => None,
    };
    let ranges = [
        ("vps_max_sublayers_minus1", 7, 7),
        ("vps_ols_mode_idc", 3, 3),
        ("vps_num_ptls_minus1", v.vps_ols_ptl_idx.len() as u32, 255),
        ("vps_ptl_max_tid", most_tid + 1, 7),
        ("vps_ptl_alignment_zero_bit", 1, 1),
        ("vps_ols_ptl_idx", v.ptls.len() as u32, u32::MAX - 1),
        ("vps_num_dpb_params_minus1", multi, u32::MAX - 1),
        ("vps_dpb_max_tid", most_tid + 1, 7),
        ("dpb_max_dec_pic_buffering_minus1", 16, u32::MAX - 1),
        ("vps_ols_dpb_bitdepth_minus8", 9, u32::MAX - 1),
        ("vps_ols_dpb_params_idx", slots, 70_000),
        ("num_units_in_tick", 0, 0),
        ("time_scale", 0, 0),
        ("hrd_cpb_cnt_minus1", 32, u32::MAX - 1),
        ("vps_num_ols_timing_hrd_params_minus1", multi, u32::MAX - 1),
        ("vps_hrd_max_tid", most_tid + 1, 7),
        ("elemental_duration_in_tc_minus1", 2048, u32::MAX - 1),
        ("vps_ols_timing_hrd_idx", entries, 70_000),
        ("rbsp_stop_one_bit", 0, 0),
        ("rbsp_alignment_zero_bit", 1, 1),
    ];
    let mut all: Vec<Vec<Target>> = ranges
        .iter()
        .map(|&(name, least, most)| {
            draft.places(name).into_iter().flat_map(|place| [put(place, least), put(place, most)]).flatten().collect()
        })
        .collect();
    // not above the id before
    let ids = draft.places("vps_layer_id");
    let id_before = |pair: &[usize]| match draft.items[pair[0]].coded {
        Coded::Field { value, .. } => [put(pair[1], value), put(pair[1], 0)],
        _ => [None, None],
    };
    all.push(ids.windows(2).flat_map(id_before).flatten().collect());
    // above the buffering before
    let buffering_before = |place: usize| match draft.items[place - 1].coded {
        Coded::Code(value) => [put(place, value + 1), put(place, u32::MAX - 1)],
        _ => [None, None],
    };
    all.push(draft.places("dpb_max_num_reorder_pics").into_iter().flat_map(buffering_before).flatten().collect());
    all.retain(|targets| !targets.is_empty());
    all
}

// Units that 01 names or that show a point in which a reader is easily wrong.
const NAMED: [&str; 59] = [
    // U, U and more, U with other last bytes
    "0071100000030233000040",
    "0071100000030233000040ff",
    "0071100000030233000000",
    "0071100000030233000041",
    "00711000000302330000e0",
    "00711000000302330000d0",
    // no unit, no header, no VPS, nothing behind the header, sublayers
    "",
    "00",
    "03",
    "71",
    "0e",
    "ff",
    "0079",
    "0069",
    "0071",
    "00711038",
    // nothing behind the id and the first bits of the layers; id 0, U with it and its greatest, and what is refused before
    // it and behind it
    "007110",
    "007100",
    "00710f",
    "0071000003000233000040",
    "0071f00000030233000040",
    "0071f038",
    "00710038",
    "0079000003000233000040",
    "007900",
    // other header bytes
    "ff77100000030233000040",
    "ff6f100000030233000040",
    // the shortest accepted
    "0071d00040ffffc00040",
    // an extension without bits, one of a 1 and zeros, one to the end of the RBSP; flag 0 before zeros and a one
    "00711000000302330000c0",
    "00711000000302330000c080",
    "00711000000302330000c0ff",
    "007110000003023300000301",
    // the extension bits 0, 1 0 0 and 0 0 0 0 0 0; over a byte of zeros; zeros behind the stop bit
    "00711000000302330000a0",
    "00711000000302330000c8",
    "0071100000030233000081",
    "00711000000302330000800040",
    "00711000000302330000ff000003",
    "00711000000302330000d0000003",
    // extension flag 1 and nothing but zeros
    "0071100000030233000080",
    "007110000003023300008000",
    "0071100000030233000080000003",
    // extension flag 1 as last bit of the RBSP; with a stop bit behind, with 0 and a stop bit behind
    "0071108400428080023300003300a5",
    "0071108400428080023300003300a580",
    "0071108400428080023300003300a540",
    // layer 1 on layer 0, mode 0; the same with a max tid of a reference
    "0071104000480002330000fc90",
    "00711040005f00000302330000fc90",
    // past the end in the layers, and on to the rows
    "0071104a5f",
    // a code of nothing left, and one that ends among its zeros
    "00711040004800023300",
    "0071104000480002330000",
    "0071104000480002330000f0",
    "0071104000480002330000fc",
    "0071104000480002330000fc00",
    "0071104000480002330000fc000000000000",
    // the shortest whose code is cut; what is left a zero, or all but the last bit; 31 zeros, 32 zeros; a code over its
    // limit that ends with the unit
    "007110400048",
    "007110400048000233000080",
    "0071104000480002330000a2",
    "00711040004800023300008000000300",
    "0071104000480002330000030000030000",
    "00711040004800023300008080",
];

// ── Printing ────────────────────────────────────────────────────────────

// A line a unit: its bytes, and the record with the bits used, or the refusal.
pub fn lines(seed: u64, count: usize, longest: usize) -> String {
    let mut units = Units::new(seed, longest);
    let mut text = String::new();
    for _ in 0..count {
        let unit = units.next();
        text.push_str(&hex_of(&unit.bytes));
        match read(&unit.bytes) {
            Reading::Accepted { record, bits_used } => {
                write!(text, " ok {bits_used}").expect("a string takes all");
                record.iter().for_each(|n| write!(text, " {n}").expect("a string takes all"));
            }
            Reading::Refused(number) => write!(text, " refused {number}").expect("a string takes all"),
        }
        text.push('\n');
    }
    text
}

// What a summary counts.
#[derive(Default)]
struct Counts {
    accepted: usize,
    refused: BTreeMap<u32, usize>,
    shown: BTreeMap<&'static str, usize>,
    // of a kind all and the accepted
    kinds: BTreeMap<&'static str, (usize, usize)>,
    set_aside: BTreeMap<(Rule, bool), usize>,
}

impl Counts {
    fn add(&mut self, unit: &Unit) {
        let judges = Judges::of(&unit.bytes);
        assert!(judges.as_claimed(), "the judges differ only as they may: {}", hex_of(&unit.bytes));
        if let Some(rule) = judges.set_aside() {
            *self.set_aside.entry((rule, judges.found().is_ok())).or_default() += 1;
        }
        let kind = self.kinds.entry(unit.kind).or_default();
        kind.0 += 1;
        match judges.found() {
            Ok((v, _)) => {
                self.accepted += 1;
                kind.1 += 1;
                for name in shapes(v, &record_of(v)) {
                    *self.shown.entry(name).or_default() += 1;
                }
            }
            Err(number) => *self.refused.entry(*number).or_default() += 1,
        }
    }

    fn text(&self) -> String {
        let words = |accepted: bool| if accepted { "accepted" } else { "refused" };
        let set_aside = self.set_aside.iter();
        let lines =
            set_aside.map(|((rule, accepted), n)| format!("set aside, {}: {} {n}\n", rule.name(), words(*accepted)));
        let lines = lines.chain(self.refused.iter().map(|(number, n)| format!("refused {number}: {n}\n")));
        let lines = lines.chain(self.shown.iter().map(|(name, n)| format!("{name}: {n}\n")));
        let kinds = self.kinds.iter();
        lines.chain(kinds.map(|(name, (n, good))| format!("made as `{name}`: {n}, accepted {good}\n"))).collect()
    }
}

// How many units each refusal, each shape and each kind has, and how many are set aside.
pub fn summary(seed: u64, count: usize, longest: usize) -> String {
    let mut units = Units::new(seed, longest);
    let mut counts = Counts { refused: numbers().map(|number| (number, 0)).collect(), ..Default::default() };
    (0..count).for_each(|_| counts.add(&units.next()));
    format!("units {count}, accepted {}\n{}", counts.accepted, counts.text())
}
