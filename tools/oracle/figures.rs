// The second judge, for bit rates, buffer sizes and picture intervals, which the Rust has not: the request's text written
// out over the Rust's structures, in numbers of 128 bits, so that one too long for 64 would be seen. How many sublayers and
// schedules there are is held to the Rust's own lists.
use crate::judges::found;
use bitstream::h266::{
    VvcCpbSchedule, VvcGeneralTimingHrd, VvcOlsTimingHrdSublayer, VvcVps, VvcVpsOlsHrd, VvcVpsTimingHrd,
};
use std::fmt::Write;

pub const ITEM_MISSING: u32 = 33;

// The kinds of schedules, as a planner names them.
pub const NAL: u32 = 0;
pub const VCL: u32 = 1;

// (2^32 - 1) * 2^21 bit/s.
pub const MOST_RATE: u128 = 9_007_199_252_643_840;

// (2^32 - 1) * 2^19 bits.
pub const MOST_SIZE: u128 = 2_251_799_813_160_960;

// 2,048 * (2^32 - 1) * 1,000,000 microseconds.
pub const MOST_INTERVAL: u128 = 8_796_093_020_160_000_000;

// A schedule that a planner names, each number counted from 0 in the order of the record.
#[derive(Clone, Copy)]
pub struct Item {
    pub entry: u32,
    pub sublayer: u32,
    pub kind: u32,
    pub schedule: u32,
}

// Why an item is missing: 33 in each case.
#[derive(Clone, Copy, PartialEq, Eq, PartialOrd, Ord, Debug)]
pub enum Missing {
    Timing,
    Entry,
    Sublayer,
    // up to the entry's max tid, but the entry is stored with one sublayer
    SublayerOfOne,
    // the NAL or VCL flag is 0
    Kind,
    Schedule,
    // neither NAL nor VCL
    OtherKind,
}

// ── Figures ─────────────────────────────────────────────────────────────

// (rate field + 1) * 2^(6 + bit rate scale), in bit/s.
pub fn bit_rate(v: &VvcVps, item: Item) -> Result<u128, Missing> {
    let (general, schedule) = schedule_of(v, item)?;
    Ok((u128::from(schedule.bit_rate_value_minus1) + 1) * 2u128.pow(6 + u32::from(general.bit_rate_scale)))
}

// (size field + 1) * 2^(4 + buffer scale), in bits.
pub fn buffer_size(v: &VvcVps, item: Item) -> Result<u128, Missing> {
    let (general, schedule) = schedule_of(v, item)?;
    Ok((u128::from(schedule.cpb_size_value_minus1) + 1) * 2u128.pow(4 + u32::from(general.cpb_size_scale)))
}

// (elemental field + 1) * units / scale in whole microseconds; nothing where the rate isn't fixed within the CVS.
pub fn picture_interval(v: &VvcVps, entry: u32, sublayer: u32) -> Result<Option<u128>, Missing> {
    let interval = exact_interval(v, entry, sublayer)?;
    Ok(interval.map(|(microseconds, scale)| microseconds / scale))
}

// Whether the interval is known and rounding takes something away.
pub fn is_rounded(v: &VvcVps, entry: u32, sublayer: u32) -> bool {
    matches!(exact_interval(v, entry, sublayer), Ok(Some((microseconds, scale))) if microseconds % scale != 0)
}

// The interval in microseconds, as a fraction.
fn exact_interval(v: &VvcVps, entry: u32, sublayer: u32) -> Result<Option<(u128, u128)>, Missing> {
    let (timing, s) = sublayer_of(v, entry, sublayer)?;
    let general = &timing.general;
    let units = (u128::from(s.elemental_duration_in_tc_minus1) + 1) * u128::from(general.num_units_in_tick);
    let fraction = (units * 1_000_000, u128::from(general.time_scale));
    Ok((s.fixed_pic_rate_within_cvs_flag == 1).then_some(fraction))
}

// ── Items ───────────────────────────────────────────────────────────────

fn schedule_of(v: &VvcVps, item: Item) -> Result<(&VvcGeneralTimingHrd, &VvcCpbSchedule), Missing> {
    let (timing, s) = sublayer_of(v, item.entry, item.sublayer)?;
    let count = schedule_count(timing, item.kind).ok_or(Missing::OtherKind)?;
    let list = if item.kind == NAL { &s.nal_hrd } else { &s.vcl_hrd };
    let schedules = list.as_ref().map_or(&[][..], |list| &list.schedules);
    assert_eq!(schedules.len(), count as usize, "as many schedules as the Rust lists");
    match count {
        0 => Err(Missing::Kind),
        _ if item.schedule >= count => Err(Missing::Schedule),
        _ => Ok((&timing.general, &schedules[item.schedule as usize])),
    }
}

fn sublayer_of(v: &VvcVps, entry: u32, sublayer: u32) -> Result<(&VvcVpsTimingHrd, &VvcOlsTimingHrdSublayer), Missing> {
    let timing = v.timing_hrd.as_ref().ok_or(Missing::Timing)?;
    let entry = timing.entries.get(entry as usize).ok_or(Missing::Entry)?;
    let stored = stored_sublayers(timing, entry);
    assert_eq!(entry.ols.sublayers.len(), stored as usize, "as many sublayers as the Rust lists");
    match sublayer {
        _ if sublayer < stored => Ok((timing, &entry.ols.sublayers[sublayer as usize])),
        _ if sublayer <= u32::from(entry.vps_hrd_max_tid) => Err(Missing::SublayerOfOne),
        _ => Err(Missing::Sublayer),
    }
}

// Under the sublayer flag an entry stores those up to its max tid, else one, which is the first of the Rust's list too.
pub fn stored_sublayers(timing: &VvcVpsTimingHrd, entry: &VvcVpsOlsHrd) -> u32 {
    if timing.vps_sublayer_cpb_params_present_flag == 1 { u32::from(entry.vps_hrd_max_tid) + 1 } else { 1 }
}

// How many schedules of a kind each sublayer has; nothing for what is no kind.
pub fn schedule_count(timing: &VvcVpsTimingHrd, kind: u32) -> Option<u32> {
    let general = &timing.general;
    let flag = match kind {
        NAL => general.general_nal_hrd_params_present_flag,
        VCL => general.general_vcl_hrd_params_present_flag,
        _ => return None,
    };
    Some(if flag == 1 { general.hrd_cpb_cnt_minus1 + 1 } else { 0 })
}

// Entry and sublayer of all that are stored, in the record's order.
pub fn sublayers(v: &VvcVps) -> Vec<(u32, u32)> {
    let Some(timing) = &v.timing_hrd else { return Vec::new() };
    let stored = |(entry, e)| (0..stored_sublayers(timing, e)).map(move |sublayer| (entry, sublayer));
    (0..).zip(&timing.entries).flat_map(stored).collect()
}

// All schedules, in the record's order.
pub fn schedules(v: &VvcVps) -> Vec<Item> {
    let Some(timing) = &v.timing_hrd else { return Vec::new() };
    let of_kind = |kind| (0..schedule_count(timing, kind).unwrap_or(0)).map(move |schedule| (kind, schedule));
    let each: Vec<(u32, u32)> = [NAL, VCL].into_iter().flat_map(of_kind).collect();
    let item = |(entry, sublayer), (kind, schedule)| Item { entry, sublayer, kind, schedule };
    sublayers(v).into_iter().flat_map(|place| each.iter().map(move |&which| item(place, which))).collect()
}

// ── In words ────────────────────────────────────────────────────────────

// The figures of an accepted unit, a line an interval or schedule, or the refusal's number.
pub fn answer(unit: &[u8]) -> String {
    match found(unit) {
        Ok((vps, _)) => lines(&vps),
        Err(number) => format!("refused {number}\n"),
    }
}

fn lines(v: &VvcVps) -> String {
    let mut text = String::new();
    for (entry, sublayer) in sublayers(v) {
        let interval = picture_interval(v, entry, sublayer).expect("it is stored");
        let words = interval.map_or("missing".to_string(), |microseconds| microseconds.to_string());
        writeln!(text, "entry {entry} sublayer {sublayer} interval {words}").expect("a string takes all");
    }
    for item in schedules(v) {
        let Item { entry, sublayer, kind, schedule } = item;
        let rate = bit_rate(v, item).expect("it is there");
        let size = buffer_size(v, item).expect("it is there");
        let list = if kind == NAL { "nal" } else { "vcl" };
        writeln!(text, "entry {entry} sublayer {sublayer} {list} {schedule} rate {rate} size {size}")
            .expect("a string takes all");
    }
    text
}
