// The tables of crates/definition_units: small units and records with the judges' answers, as antt.
use crate::cut_codes::units_of_each_end;
use crate::id_rule::ID_ZERO;
use crate::judges::{Judges, Rule};
use crate::record::{Reading, read, record_of, set_aside, structure_of, written};
use crate::refusal::numbers;
use crate::show::{hex_of, unit_of};
use crate::structures::{Mode, SHAPES, mode_of, shapes};
use crate::units::{CUT_IN_CODE, Unit, Units};
use bitstream::h266::{
    VvcCpbSchedule, VvcGeneralTimingHrd, VvcOlsTimingHrd, VvcOlsTimingHrdSublayer, VvcSublayerHrd, VvcVps,
    VvcVpsOlsHrd, VvcVpsTimingHrd, parse_vps,
};
use std::collections::{BTreeMap, HashSet};
use std::path::Path;

// A stream of units, and how many of it are taken: so many of a kind with the same answer, and at least so many of each
// answer and of each shape.
struct Stream {
    seed: u64,
    shortest: usize,
    longest: usize,
    each: usize,
    least: usize,
}

const SHORT: Stream = Stream { seed: 0x5650_5301, shortest: 0, longest: 40, each: 4, least: 6 };
const LONGER: Stream = Stream { seed: 0x5650_5302, shortest: 41, longest: 80, each: 0, least: 3 };

// The most bytes of a unit that ends in a code.
const ENDED_LONGEST: usize = 50;

// So many units of a stream are looked at.
const LENGTH: usize = 40_000;

// Of units as they are written, so many of each mode.
const WRITTEN_EACH: usize = 10;

// Reaching layers takes the definition long where there are many.
const MOST_LAYERS: usize = 5;

// The files of short units, each with what it has and with the kinds that it takes.
const FILES: [(&str, &str, &[&str]); 5] = [
    ("UnitsWritten", "Units as they are written, in every mode, with the way back from the record.", &["written"]),
    (
        "UnitsFramed",
        "Units with another header, other alignment bits, bytes behind or less stuffing.",
        &["header", "alignment", "appended", "unstuffed"],
    ),
    (
        "UnitsRefused",
        "Units with something that is refused, and behind it the rest, the end, zeros or ones.",
        &["refused item", "no direct reference", "no output layer", "no multi-layer set", "zeros for a code", "id 0"],
    ),
    (
        "UnitsCut",
        "Units that the papers name, and units cut behind a byte, or behind an item and then filled with zeros or ones.",
        &["named", "cut", "cut behind an item"],
    ),
    ("UnitsChanged", "Units with bits flipped or with other values in their fields.", &["flipped", "another value"]),
];

// Writes the tables into a folder, and says how many units and records they have.
pub fn write(folder: &str) -> std::io::Result<String> {
    let short = chosen(&SHORT);
    let longer = chosen(&LONGER);
    let mut files: Vec<(&str, &str, Vec<&Answered>)> = Vec::new();
    for (name, about, kinds) in FILES {
        let of_kind = |kind: &&str| short.iter().filter(|(unit, _)| unit.kind == *kind).collect::<Vec<_>>();
        files.push((name, about, kinds.iter().flat_map(of_kind).collect()));
    }
    files.push(("UnitsLonger", "Units of all these kinds that are longer.", longer.iter().collect()));
    let ended = ended_in_codes();
    files.push((
        "UnitsEndedInCodes",
        "Units that end in a code: each code cut in every way, and whole or too long with the last bit.",
        ended.iter().collect(),
    ));
    for (name, about, units) in &files {
        let entries = units.iter().map(|answered| unit_entry(answered)).collect();
        put(folder, name, about, &Table { constants: Vec::new(), entries })?;
    }
    let records = Records::made();
    put(
        folder,
        "RecordsChanged",
        "Records with another number, one more or one less: written, or not well formed; the Rust writes some of those too.",
        &records.table,
    )?;
    let units: Vec<&Answered> = files.into_iter().flat_map(|(_, _, units)| units).collect();
    let both = units.iter().filter(|answered| way_back(answered)).count();
    Ok(format!(
        "{}{}accepted, with the way back {both}\nrecords changed and written {}, not well formed {}\n{}",
        counts(&units),
        units_set_aside(&units),
        records.good,
        records.broken,
        records.set_aside(),
    ))
}

// ── Units ───────────────────────────────────────────────────────────────

type Answered = (Unit, Reading);

// What units are counted by: the refusal's number, or the mode.
#[derive(Clone, Copy, PartialEq, Eq, PartialOrd, Ord)]
pub enum Answer {
    Refused(u32),
    Accepted(Mode),
}

pub fn answer_of(reading: &Reading) -> Answer {
    match reading {
        Reading::Refused(number) => Answer::Refused(*number),
        Reading::Accepted { record, .. } => Answer::Accepted(mode_of(record)),
    }
}

// The answer, and the Rust's number where the rule of cut codes has another. By this units are chosen, so that there are
// some of each number that was given behind a cut code.
pub type AnswerOfBoth = (Answer, Option<u32>);

pub fn answer_of_both(judges: &Judges) -> AnswerOfBoth {
    (answer_of(&Reading::of(judges.found())), judges.refused_behind_cut())
}

fn shapes_of((unit, reading): &Answered) -> Vec<&'static str> {
    match reading {
        Reading::Refused(_) => Vec::new(),
        Reading::Accepted { record, .. } => shapes(&structure_of(&unit.bytes).expect("it is accepted"), record),
    }
}

// vps_max_layers_minus1 + 1; no stuffing stands before its bits.
fn layers(unit: &[u8]) -> usize {
    match unit {
        [_, _, a, b, ..] => (usize::from(a % 16) << 2 | usize::from(b / 64)) + 1,
        _ => 1,
    }
}

// So many units of each kind and answer from a stream, and more of a refusal or a shape that has few. Those that are made to
// end in a code have a file of their own.
fn chosen(stream: &Stream) -> Vec<Answered> {
    let mut units = Units::new(stream.seed, stream.longest);
    let others = std::iter::repeat_with(|| units.next()).filter(|unit| unit.kind != CUT_IN_CODE);
    let mut taken: BTreeMap<(&str, AnswerOfBoth), usize> = BTreeMap::new();
    let mut answers: BTreeMap<AnswerOfBoth, usize> = BTreeMap::new();
    let mut shown: BTreeMap<&str, usize> = BTreeMap::new();
    let mut all = Vec::new();
    for unit in others.take(LENGTH) {
        let judges = Judges::of(&unit.bytes);
        let (reading, answer) = (Reading::of(judges.found()), answer_of_both(&judges));
        let many = layers(&unit.bytes) > MOST_LAYERS && !matches!(answer.0, Answer::Refused(1..=7 | ID_ZERO));
        if many || unit.bytes.len() < stream.shortest {
            continue;
        }
        let kind = unit.kind;
        let answered = (unit, reading);
        let shapes = shapes_of(&answered);
        let each = if kind == "written" && stream.each > 0 { WRITTEN_EACH } else { stream.each };
        let few = taken.get(&(kind, answer)).copied().unwrap_or(0) < each;
        let rare = answers.get(&answer).copied().unwrap_or(0) < stream.least
            || shapes.iter().any(|shape| shown.get(shape).copied().unwrap_or(0) < stream.least);
        if few || rare || kind == "named" {
            *taken.entry((kind, answer)).or_default() += 1;
            *answers.entry(answer).or_default() += 1;
            shapes.iter().for_each(|shape| *shown.entry(shape).or_default() += 1);
            all.push(answered);
        }
    }
    all
}

// One unit of each code and of each way in which the RBSP ends in it.
fn ended_in_codes() -> Vec<Answered> {
    let answered = |bytes: Vec<u8>| {
        let reading = read(&bytes);
        (Unit { bytes, kind: CUT_IN_CODE }, reading)
    };
    units_of_each_end(0x5650_5303, ENDED_LONGEST, 1).into_iter().map(answered).collect()
}

// How many units there are of each refusal and each shape, with a stop where there are too few.
fn counts(units: &[&Answered]) -> String {
    let mut refused: BTreeMap<u32, usize> = numbers().map(|number| (number, 0)).collect();
    let mut shown: BTreeMap<&str, usize> = SHAPES.map(|shape| (shape, 0)).into();
    for answered in units {
        if let Reading::Refused(number) = answered.1 {
            *refused.entry(number).or_default() += 1;
        }
        for shape in shapes_of(answered) {
            *shown.entry(shape).or_default() += 1;
        }
    }
    let accepted = units.len() - refused.values().sum::<usize>();
    let mut text = format!("units {}, accepted {accepted}\n", units.len());
    for (number, count) in &refused {
        assert!(*count >= SHORT.least, "too few units of refusal {number}");
        text.push_str(&format!("refused {number}: {count}\n"));
    }
    for (shape, count) in &shown {
        assert!(*count >= SHORT.least, "too few units of shape {shape}");
        text.push_str(&format!("{shape}: {count}\n"));
    }
    text
}

// How many units each rule sets aside, so that the answer is the second judge's.
fn units_set_aside(units: &[&Answered]) -> String {
    let mut counts: BTreeMap<(Rule, &str), usize> = BTreeMap::new();
    for (unit, reading) in units {
        if let Some(rule) = Judges::of(&unit.bytes).set_aside() {
            let words = if matches!(reading, Reading::Accepted { .. }) { "accepted" } else { "refused" };
            *counts.entry((rule, words)).or_default() += 1;
        }
    }
    counts.iter().map(|((rule, words), count)| format!("set aside, {}: {words} {count}\n", rule.name())).collect()
}

// ── Records ─────────────────────────────────────────────────────────────

pub const U: &str = "0071100000030233000040";
pub const D: &str = "0071104000480002330000fc90";

// A record of a name, and what was made of it, in antt and as numbers.
struct Records {
    table: Table,
    good: usize,
    broken: usize,
    // those that the second judge says, by rule, and whether they are good
    set_aside: BTreeMap<(Rule, bool), usize>,
    seen: HashSet<Vec<u32>>,
}

impl Records {
    fn made() -> Self {
        let mut records =
            Self { table: Table::default(), good: 0, broken: 0, set_aside: BTreeMap::new(), seen: HashSet::new() };
        let u = vps_of(U);
        let d = vps_of(D);
        records.lengths("u", &record_of(&u));
        records.each_number("u", &record_of(&u));
        records.lengths("d", &record_of(&d));
        records.each_number("d", &record_of(&d));
        for (name, nal, vcl, du, schedules) in
            [("d_timing", 0, 0, 0, 1), ("d_nal", 1, 0, 0, 1), ("d_vcl_du_two_schedules", 0, 1, 1, 2)]
        {
            let mut v = d.clone();
            v.timing_hrd = Some(timing(nal, vcl, du, schedules));
            let record = record_of(&v);
            let timing_starts = record[record.len() - 3] as usize;
            records.each_number_from(timing_starts, name, &record);
        }
        records.each_number("d_sublayers", &record_of(&sublayers(&d)));
        records.each_number("two_of_each", &record_of(&two_of_each(&d)));
        records.extensions(&u);
        records.several_numbers(&u, &d);
        records
    }

    // A record and the antt that stands for it, under a comment.
    fn add(&mut self, about: &str, antt: String, numbers: Vec<u32>) {
        if !self.seen.insert(numbers.clone()) {
            return;
        }
        let unit = written(&numbers);
        if let Some(rule) = set_aside(&numbers) {
            *self.set_aside.entry((rule, unit.is_some())).or_default() += 1;
        }
        let line = match unit {
            Some(unit) => {
                self.good += 1;
                format!("written {antt} {}", bytes(&unit))
            }
            None => {
                self.broken += 1;
                format!("broken {antt}")
            }
        };
        self.table.entries.push((about.to_string(), line));
    }

    fn set_aside(&self) -> String {
        let words = |good: bool| if good { "written" } else { "not well formed" };
        let counts = self.set_aside.iter();
        counts.map(|((rule, good), count)| format!("set aside, {}: {} {count}\n", rule.name(), words(*good))).collect()
    }

    // A record that others are made of.
    fn base(&mut self, name: &str, record: &[u32]) {
        let constant = (name.to_string(), list(record));
        if !self.table.constants.contains(&constant) {
            self.table.constants.push(constant);
        }
        self.add(name, name.to_string(), record.to_vec());
    }

    fn number(&mut self, name: &str, record: &[u32], k: usize, value: u32) {
        let mut numbers = record.to_vec();
        numbers[k] = value;
        self.add(name, format!("(set {name} {k} {value})"), numbers);
    }

    fn each_number(&mut self, name: &str, record: &[u32]) {
        self.each_number_from(0, name, record);
    }

    // Each number one more and one less, and at both sides of a limit.
    fn each_number_from(&mut self, first: usize, name: &str, record: &[u32]) {
        self.base(name, record);
        for k in first..record.len() {
            let value = record[k];
            self.number(name, record, k, value + 1);
            self.number(name, record, k, if value == 0 { 2 } else { value - 1 });
            for limit in [4, 8, 9, 16, 32, 64, 128, 256, 2048, u32::MAX] {
                let good = |value: u32| {
                    let mut numbers = record.to_vec();
                    numbers[k] = value;
                    written(&numbers).is_some()
                };
                if good(limit - 1) && !good(limit) {
                    self.number(name, record, k, limit - 1);
                    self.number(name, record, k, limit);
                }
            }
        }
    }

    // One number more or less, at the beginning of each section and at the end, and shorter lists.
    fn lengths(&mut self, name: &str, record: &[u32]) {
        self.base(name, record);
        let length = record.len();
        let mut places = vec![0, 1, length - 1];
        places.extend(record[length - 8..].iter().map(|&start| start as usize));
        for k in places {
            let mut more = record.to_vec();
            more.insert(k, 0);
            self.add(name, format!("(take {k} {name} ++ (0 ∷ drop {k} {name}))"), more);
            if k < length {
                let mut less = record.to_vec();
                less.remove(k);
                self.add(name, format!("(take {k} {name} ++ drop {} {name})", k + 1), less);
                self.add(name, format!("(take {k} {name})"), record[..k].to_vec());
            }
        }
        self.add(name, format!("({name} ++ {name})"), [record, record].concat());
    }

    fn extensions(&mut self, u: &VvcVps) {
        let with_flag: [&[u8]; 6] = [&[1], &[0, 1], &[0], &[1, 0], &[2, 1], &[2]];
        let without: [&[u8]; 2] = [&[1], &[0]];
        for (flag, bits) in with_flag.map(|bits| (1, bits)).into_iter().chain(without.map(|bits| (0, bits))) {
            let mut v = u.clone();
            v.vps_extension_flag = flag;
            v.vps_extension_data = bits.to_vec();
            let record = record_of(&v);
            self.add("extension flag and bits", list(&record), record);
        }
    }

    // What takes several numbers: constraint bits, rows, slots.
    fn several_numbers(&mut self, u: &VvcVps, d: &VvcVps) {
        let mut add = |about: &str, v: &VvcVps| {
            let record = record_of(v);
            self.add(about, list(&record), record);
        };
        for (said, there) in [(0, 0), (1, 1), (5, 5), (6, 6), (0, 1), (1, 0), (1, 6), (5, 6), (6, 5), (255, 0)] {
            let mut v = u.clone();
            v.ptls[0].ptl.gci_present_flag = true;
            v.ptls[0].ptl.gci_bits = (0..69).map(|i| i % 3 == 0).collect();
            v.ptls[0].ptl.gci_bits.extend((0..8).rev().map(|k| said >> k & 1 == 1));
            v.ptls[0].ptl.gci_bits.extend(vec![true; there]);
            add("constraints: so many additional bits are said, and so many are there", &v);
        }
        let mut v = u.clone();
        v.vps_max_sublayers_minus1 = 1;
        v.ptls[0].vps_ptl_max_tid = 1;
        for flag in [0, 1, 2] {
            v.ptls[0].ptl.ptl_sublayer_level_present_flag = vec![flag];
            v.ptls[0].ptl.sublayer_level_idc = if flag == 0 { vec![] } else { vec![77] };
            add("a sublayer flag with its level", &v);
        }
        let mut v = d.clone();
        v.ptls.clear();
        add("no PTL", &v);
        v.ptls = vec![d.ptls[0].clone(); 3];
        add("a PTL more than there are sets", &v);
        let mut v = d.clone();
        v.dpb_params.clear();
        add("no DPB slot", &v);
        v.dpb_params = vec![d.dpb_params[0].clone(); 2];
        add("a DPB slot more than there are multi-layer sets", &v);
        let mut v = d.clone();
        let mut t = timing(0, 0, 0, 1);
        t.entries.push(t.entries[0].clone());
        v.timing_hrd = Some(t.clone());
        add("a timing entry more than there are multi-layer sets", &v);
        t.entries.clear();
        v.timing_hrd = Some(t);
        add("no timing entry", &v);
        let mut v = d.clone();
        v.vps_ols_output_layer_flags = vec![vec![1, 1]];
        add("a row under mode 0", &v);
        v.vps_ols_mode_idc = 2;
        add("a row under mode 2", &v);
        v.vps_ols_output_layer_flags = vec![vec![0, 0]];
        add("a row without output layer", &v);
        v.vps_ols_output_layer_flags.clear();
        add("no row under mode 2", &v);
        let mut v = d.clone();
        v.layers[0].vps_layer_id = 5;
        add("layer ids that don't rise", &v);
        v.layers[1].vps_layer_id = 6;
        add("layer ids that rise", &v);
        for (du, values) in [(1, None), (0, Some((0, 0)))] {
            let mut v = d.clone();
            let mut t = timing(1, 0, du, 1);
            t.entries[0].ols.sublayers[0].nal_hrd = Some(schedules(values, 1));
            v.timing_hrd = Some(t);
            add("DU numbers without their flag, and the flag without them", &v);
        }
    }
}

// D with three sublayers, coded max tids, and buffers and timing by sublayer.
fn sublayers(d: &VvcVps) -> VvcVps {
    let mut v = d.clone();
    v.vps_max_sublayers_minus1 = 2;
    v.vps_default_ptl_dpb_hrd_max_tid_flag = 0;
    v.layers[1].vps_max_tid_il_ref_pics_plus1 = vec![3];
    v.vps_sublayer_dpb_params_present_flag = 1;
    v.dpb_params[0].vps_dpb_max_tid = 1;
    v.dpb_params[0].dpb.entries = vec![d.dpb_params[0].dpb.entries[0]; 2];
    v.ptls[0].vps_ptl_max_tid = 2;
    v.ptls[0].ptl.ptl_sublayer_level_present_flag = vec![1, 0];
    v.ptls[0].ptl.sublayer_level_idc = vec![35];
    let mut t = timing(0, 0, 0, 1);
    t.vps_sublayer_cpb_params_present_flag = 1;
    t.entries[0].vps_hrd_max_tid = 1;
    let sublayer = t.entries[0].ols.sublayers[0].clone();
    t.entries[0].ols.sublayers.push(sublayer);
    v.timing_hrd = Some(t);
    v
}

// Four layers, the upper ones on the lowest, with two PTLs, DPB slots and timing entries, and coded indices.
fn two_of_each(d: &VvcVps) -> VvcVps {
    let mut v = d.clone();
    for i in 2..4 {
        let mut layer = d.layers[1].clone();
        layer.vps_layer_id = i;
        layer.vps_direct_ref_layer_flag.resize(usize::from(i), 0);
        layer.vps_max_tid_il_ref_pics_plus1.resize(usize::from(i), 1);
        v.layers.push(layer);
    }
    let mut ptl = d.ptls[0].clone();
    ptl.vps_pt_present_flag = 0;
    ptl.ptl.general_profile_idc = None;
    ptl.ptl.general_tier_flag = None;
    v.ptls.push(ptl);
    v.vps_ols_ptl_idx = vec![0, 1, 1, 0];
    v.dpb_params.push(d.dpb_params[0].clone());
    v.ols_dpbs = vec![d.ols_dpbs[0].clone(); 3];
    v.ols_dpbs[1].vps_ols_dpb_params_idx = 1;
    let mut t = timing(0, 0, 0, 1);
    t.entries.push(t.entries[0].clone());
    t.vps_ols_timing_hrd_idx = vec![1, 0, 1];
    v.timing_hrd = Some(t);
    v
}

pub fn vps_of(hex: &str) -> VvcVps {
    parse_vps(&unit_of(hex).expect("pairs of hexadecimal digits")).expect("an accepted unit")
}

// Timing for one multi-layer set of one sublayer.
pub fn timing(nal: u8, vcl: u8, du: u8, count: u32) -> VvcVpsTimingHrd {
    let hrd = || Some(schedules((du == 1).then_some((6, 7)), count));
    let sublayer = VvcOlsTimingHrdSublayer {
        fixed_pic_rate_general_flag: 0,
        fixed_pic_rate_within_cvs_flag: 0,
        elemental_duration_in_tc_minus1: 0,
        low_delay_hrd_flag: u8::from(nal + vcl > 0 && count == 1),
        nal_hrd: if nal == 1 { hrd() } else { None },
        vcl_hrd: if vcl == 1 { hrd() } else { None },
    };
    VvcVpsTimingHrd {
        general: VvcGeneralTimingHrd {
            num_units_in_tick: 1001,
            time_scale: 60_000,
            general_nal_hrd_params_present_flag: nal,
            general_vcl_hrd_params_present_flag: vcl,
            general_du_hrd_params_present_flag: du,
            hrd_cpb_cnt_minus1: count - 1,
            ..Default::default()
        },
        vps_sublayer_cpb_params_present_flag: 0,
        entries: vec![VvcVpsOlsHrd { vps_hrd_max_tid: 0, ols: VvcOlsTimingHrd { sublayers: vec![sublayer] } }],
        vps_ols_timing_hrd_idx: vec![0],
    }
}

fn schedules(du_values_minus1: Option<(u32, u32)>, count: u32) -> VvcSublayerHrd {
    let schedule =
        |i| VvcCpbSchedule { bit_rate_value_minus1: 3 + i, cpb_size_value_minus1: 4, du_values_minus1, cbr_flag: 1 };
    VvcSublayerHrd { schedules: (0..count).map(schedule).collect() }
}

// ── antt ────────────────────────────────────────────────────────────────

// The entries of a file, each under a comment, and the lists that they are made of.
#[derive(Default)]
struct Table {
    constants: Vec<(String, String)>,
    entries: Vec<(String, String)>,
}

// A unit with its reading, and with the way back where the record is written as this unit.
fn unit_entry(answered: &Answered) -> (String, String) {
    let (unit, reading) = answered;
    let line = match reading {
        Reading::Refused(number) => format!("unit {} (refuses {number})", bytes(&unit.bytes)),
        Reading::Accepted { record, bits_used } if way_back(answered) => {
            format!("trip {} {} {bits_used}", bytes(&unit.bytes), list(record))
        }
        Reading::Accepted { record, bits_used } => {
            format!("unit {} (accepts {} {bits_used})", bytes(&unit.bytes), list(record))
        }
    };
    (unit.kind.to_string(), line)
}

fn way_back((unit, reading): &Answered) -> bool {
    match reading {
        Reading::Accepted { record, .. } => written(record).as_ref() == Some(&unit.bytes),
        Reading::Refused(_) => false,
    }
}

// A unit's length and its bytes as one number.
fn bytes(unit: &[u8]) -> String {
    if unit.is_empty() { "0 0".to_string() } else { format!("{} 0x{}", unit.len(), hex_of(unit)) }
}

fn list(numbers: &[u32]) -> String {
    if numbers.is_empty() {
        return "[]".to_string();
    }
    let mut text = String::from("(");
    numbers.iter().for_each(|n| text.push_str(&format!("{n} ∷ ")));
    text.push_str("[])");
    text
}

fn put(folder: &str, name: &str, about: &str, table: &Table) -> std::io::Result<()> {
    let has = |word: &str| table.entries.iter().any(|(_, line)| line.starts_with(word));
    let says = |word: &str| table.entries.iter().any(|(_, line)| line.contains(word));
    let mut names = vec!["bytes_before", "Case"];
    names.extend(["unit", "trip", "written", "broken"].iter().filter(|word| has(word)));
    names.extend(["reply", "replies", "answers"]);
    let constants = table.constants.iter().map(|(name, _)| format!("{name} ")).collect::<String>();
    let mut text = format!(
        "-- {about}
-- Generated by `oracle definition-units crates/definition_units/specs`, which tools/oracle/build builds; not edited by hand.
"
    );
    let words = if constants.is_empty() {
        "◌≡◌, refl, List, [], ◌∷◌"
    } else {
        "ℕ, ◌≡◌, refl, List, [], ◌∷◌, ◌++◌, set, take, drop"
    };
    text.push_str(&format!("use Rattle.std.specs.Prelude.{{{words}}}\n"));
    let readings: Vec<&str> = ["accepts", "refuses"].into_iter().filter(|word| says(word)).collect();
    if !readings.is_empty() {
        text.push_str(&format!("use Rattle.vps_definition.specs.Reading.Reading.{{{}}}\n", readings.join(", ")));
    }
    text.push_str("use Rattle.vps_definition.specs.Open.{opened}\n");
    text.push_str(&format!("use Rattle.definition_units.specs.Table.{{{}}}\n\n", names.join(", ")));
    for (name, numbers) in &table.constants {
        text.push_str(&format!("{name} : List ℕ\n{name} = {numbers}\n\n"));
    }
    text.push_str("pub table : List Case\ntable =\n");
    let mut last = "";
    for (i, (about, line)) in table.entries.iter().enumerate() {
        if about != last {
            text.push_str(&format!("    -- {about}\n"));
            last = about;
        }
        text.push_str(if i == 0 { "    " } else { "    ∷ " });
        text.push_str(line);
        text.push('\n');
    }
    text.push_str("    ∷ []\n\n");
    text.push_str("pub cases_hold : replies table ≡ answers table\n");
    text.push_str(&format!("unfolding opened bytes_before reply replies answers {constants}table\n"));
    text.push_str("cases_hold = refl\n");
    std::fs::write(Path::new(folder).join(format!("{name}.antt")), text)
}
