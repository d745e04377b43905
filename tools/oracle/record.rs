// The record of 01 from the Rust's structure of a VPS, and back.
use crate::extension_rule::{Found, ends_in_zero, write_rbsp, write_unit};
use crate::id_rule::refuses_list;
use crate::judges::{Rule, found, found_with_any_id};
use bitstream::h266::{
    VvcCpbSchedule, VvcDpbEntry, VvcDpbParameters, VvcGeneralTimingHrd, VvcOlsTimingHrd, VvcOlsTimingHrdSublayer,
    VvcProfileTierLevel, VvcSublayerHrd, VvcVps, VvcVpsDpb, VvcVpsLayer, VvcVpsOlsDpb, VvcVpsOlsHrd, VvcVpsPtl,
    VvcVpsTimingHrd, write_vps,
};

// What reading a unit gives: the record and the bits used, or a refusal's number.
#[derive(Clone, PartialEq, Eq)]
pub enum Reading {
    Accepted { record: Vec<u32>, bits_used: usize },
    Refused(u32),
}

impl Reading {
    pub fn of(found: &Found) -> Self {
        match found {
            Ok((vps, bits_used)) => Reading::Accepted { record: record_of(vps), bits_used: *bits_used },
            Err(number) => Reading::Refused(*number),
        }
    }
}

// The Rust's answer, or the second judge's where the Rust's doesn't count.
pub fn read(unit: &[u8]) -> Reading {
    Reading::of(&found(unit))
}

// The structure of an accepted unit.
pub fn structure_of(unit: &[u8]) -> Option<VvcVps> {
    found(unit).ok().map(|(vps, _)| vps)
}

// The bytes of a well-formed record, or nothing. The Rust's writer accepts more than 01 calls well formed; a list is
// well formed if its id isn't 0, it has the layout, it is written in at most 65,535 bytes of RBSP, and reading that gives
// the list.
pub fn written(list: &[u32]) -> Option<Vec<u8>> {
    written_and_read(list).map(|(unit, _)| unit)
}

// The bytes, and the structure that reading them gives.
pub fn written_and_read(list: &[u32]) -> Option<(Vec<u8>, VvcVps)> {
    if refuses_list(list) { None } else { written_with_any_id(list) }
}

fn written_with_any_id(list: &[u32]) -> Option<(Vec<u8>, VvcVps)> {
    let vps = vps_of(list)?;
    let rbsp = write_rbsp(&vps).ok()?;
    let unit = write_unit(&vps).ok()?;
    let (back, bits_used) = found_with_any_id(&unit).ok()?;
    let same = record_of(&back) == list && bits_used == 8 * rbsp.len();
    (rbsp.len() <= 65_535 && same).then_some((unit, back))
}

// The rule by which a list is written, or refused, in place of the Rust: it has id 0 and is well formed but for that, or it
// has the layout and its extension ends in 0.
pub fn set_aside(list: &[u32]) -> Option<Rule> {
    if refuses_list(list) && written_with_any_id(list).is_some() {
        return Some(Rule::Id);
    }
    vps_of(list).filter(ends_in_zero).map(|_| Rule::Extension)
}

// Whether the Rust's writer takes a list.
pub fn written_by_rust(list: &[u32]) -> bool {
    vps_of(list).is_some_and(|vps| write_vps(&vps).is_ok())
}

// ── To the record ───────────────────────────────────────────────────────

pub fn record_of(v: &VvcVps) -> Vec<u32> {
    let mut r: Vec<u32> = vec![v.layers.len() as u32];
    r.extend(
        [
            v.vps_video_parameter_set_id,
            v.vps_max_sublayers_minus1,
            v.vps_default_ptl_dpb_hrd_max_tid_flag,
            v.vps_all_independent_layers_flag,
            v.vps_each_layer_is_an_ols_flag,
            v.vps_ols_mode_idc,
            v.vps_sublayer_dpb_params_present_flag,
            v.vps_extension_flag,
        ]
        .map(u32::from),
    );
    let mut trailer = Vec::new();
    for section in SECTIONS {
        trailer.push(r.len() as u32);
        section(v, &mut r);
    }
    trailer.push(r.len() as u32 + 8);
    r.extend(trailer);
    r
}

// The sections between General and the trailer.
const SECTIONS: [fn(&VvcVps, &mut Vec<u32>); 7] = [layers, rows, ptls, sets, dpb, timing, extension];

// How many numbers each section of the record has: the nine of General, those of each section alone, the trailer's eight.
pub fn section_lengths(v: &VvcVps) -> Vec<usize> {
    let mut lengths = vec![9];
    for section in SECTIONS {
        let mut alone = Vec::new();
        section(v, &mut alone);
        lengths.push(alone.len());
    }
    lengths.push(8);
    lengths
}

fn layers(v: &VvcVps, r: &mut Vec<u32>) {
    for l in &v.layers {
        r.extend([l.vps_layer_id, l.vps_independent_layer_flag, l.vps_max_tid_ref_present_flag].map(u32::from));
        for (&direct, &max_tid) in l.vps_direct_ref_layer_flag.iter().zip(&l.vps_max_tid_il_ref_pics_plus1) {
            r.extend([direct, max_tid].map(u32::from));
        }
    }
}

fn rows(v: &VvcVps, r: &mut Vec<u32>) {
    r.push(v.vps_ols_output_layer_flags.len() as u32);
    r.extend(v.vps_ols_output_layer_flags.iter().flatten().map(|&flag| u32::from(flag)));
}

fn ptls(v: &VvcVps, r: &mut Vec<u32>) {
    r.push(v.ptls.len() as u32);
    for slot in &v.ptls {
        let ptl = &slot.ptl;
        let present = slot.vps_pt_present_flag != 0;
        r.extend([slot.vps_pt_present_flag, slot.vps_ptl_max_tid].map(u32::from));
        r.extend(ptl.general_profile_idc.iter().chain(&ptl.general_tier_flag).map(|&n| u32::from(n)));
        r.extend(
            [ptl.general_level_idc, ptl.ptl_frame_only_constraint_flag, ptl.ptl_multilayer_enabled_flag].map(u32::from),
        );
        if present {
            r.extend([u32::from(ptl.gci_present_flag), ptl.gci_bits.len() as u32]);
            r.extend(ptl.gci_bits.iter().map(|&bit| u32::from(bit)));
        }
        r.extend(ptl.ptl_sublayer_level_present_flag.iter().chain(&ptl.sublayer_level_idc).map(|&n| u32::from(n)));
        if present {
            r.push(ptl.general_sub_profile_idc.len() as u32);
            r.extend(&ptl.general_sub_profile_idc);
        }
    }
}

fn sets(v: &VvcVps, r: &mut Vec<u32>) {
    r.push(v.vps_ols_ptl_idx.len() as u32);
    r.extend(&v.vps_ols_ptl_idx);
}

fn dpb(v: &VvcVps, r: &mut Vec<u32>) {
    r.push(v.dpb_params.len() as u32);
    for slot in &v.dpb_params {
        r.push(u32::from(slot.vps_dpb_max_tid));
        for e in &slot.dpb.entries {
            r.extend([
                e.dpb_max_dec_pic_buffering_minus1,
                e.dpb_max_num_reorder_pics,
                e.dpb_max_latency_increase_plus1,
            ]);
        }
    }
    r.push(v.ols_dpbs.len() as u32);
    for d in &v.ols_dpbs {
        r.extend([
            d.vps_ols_dpb_pic_width,
            d.vps_ols_dpb_pic_height,
            u32::from(d.vps_ols_dpb_chroma_format),
            d.vps_ols_dpb_bitdepth_minus8,
            d.vps_ols_dpb_params_idx,
        ]);
    }
}

fn timing(v: &VvcVps, r: &mut Vec<u32>) {
    r.push(u32::from(v.timing_hrd.is_some()));
    let Some(t) = &v.timing_hrd else { return };
    let g = &t.general;
    r.extend([g.num_units_in_tick, g.time_scale]);
    r.extend(
        [
            g.general_nal_hrd_params_present_flag,
            g.general_vcl_hrd_params_present_flag,
            g.general_same_pic_timing_in_all_ols_flag,
            g.general_du_hrd_params_present_flag,
            g.tick_divisor_minus2,
            g.bit_rate_scale,
            g.cpb_size_scale,
            g.cpb_size_du_scale,
        ]
        .map(u32::from),
    );
    r.extend([g.hrd_cpb_cnt_minus1, u32::from(t.vps_sublayer_cpb_params_present_flag), t.entries.len() as u32]);
    for e in &t.entries {
        r.push(u32::from(e.vps_hrd_max_tid));
        for s in &e.ols.sublayers {
            r.extend([
                u32::from(s.fixed_pic_rate_general_flag),
                u32::from(s.fixed_pic_rate_within_cvs_flag),
                s.elemental_duration_in_tc_minus1,
                u32::from(s.low_delay_hrd_flag),
            ]);
            for schedule in s.nal_hrd.iter().chain(&s.vcl_hrd).flat_map(|h| &h.schedules) {
                r.extend([schedule.bit_rate_value_minus1, schedule.cpb_size_value_minus1]);
                if let Some((size, rate)) = schedule.du_values_minus1 {
                    r.extend([size, rate]);
                }
                r.push(u32::from(schedule.cbr_flag));
            }
        }
    }
    r.extend(&t.vps_ols_timing_hrd_idx);
}

fn extension(v: &VvcVps, r: &mut Vec<u32>) {
    r.push(v.vps_extension_data.len() as u32);
    r.extend(v.vps_extension_data.iter().map(|&bit| u32::from(bit)));
}

// ── From the record ─────────────────────────────────────────────────────

// The numbers of a record, one behind the other.
struct Numbers<'a> {
    rest: &'a [u32],
}

impl Numbers<'_> {
    fn next(&mut self) -> Option<u32> {
        let (&first, rest) = self.rest.split_first()?;
        self.rest = rest;
        Some(first)
    }

    // a number of the Rust's u8; a wider one stands in no field that is one
    fn byte(&mut self) -> Option<u8> {
        u8::try_from(self.next()?).ok()
    }

    fn flag(&mut self) -> Option<bool> {
        match self.next()? {
            0 => Some(false),
            1 => Some(true),
            _ => None,
        }
    }

    // a count; no list has more entries than numbers
    fn count(&mut self) -> Option<usize> {
        let count = self.next()? as usize;
        (count <= self.rest.len()).then_some(count)
    }

    fn many<T>(&mut self, count: usize, item: impl Fn(&mut Self) -> Option<T>) -> Option<Vec<T>> {
        (0..count).map(|_| item(self)).collect()
    }
}

// The Rust's structure of a list that has the layout. Nothing is checked but that its numbers have a place there.
fn vps_of(record: &[u32]) -> Option<VvcVps> {
    let mut r = Numbers { rest: record };
    let n = r.count()?;
    let mut v = VvcVps {
        vps_video_parameter_set_id: r.byte()?,
        vps_max_sublayers_minus1: r.byte()?,
        vps_default_ptl_dpb_hrd_max_tid_flag: r.byte()?,
        vps_all_independent_layers_flag: r.byte()?,
        vps_each_layer_is_an_ols_flag: r.byte()?,
        vps_ols_mode_idc: r.byte()?,
        vps_sublayer_dpb_params_present_flag: r.byte()?,
        vps_extension_flag: r.byte()?,
        ..Default::default()
    };
    for i in 0..n {
        let mut l = VvcVpsLayer {
            vps_layer_id: r.byte()?,
            vps_independent_layer_flag: r.byte()?,
            vps_max_tid_ref_present_flag: r.byte()?,
            ..Default::default()
        };
        if l.vps_independent_layer_flag == 0 {
            for _ in 0..i {
                l.vps_direct_ref_layer_flag.push(r.byte()?);
                l.vps_max_tid_il_ref_pics_plus1.push(r.byte()?);
            }
        }
        v.layers.push(l);
    }
    let count = r.count()?;
    v.vps_ols_output_layer_flags = r.many(count, |r| r.many(n, Numbers::byte))?;
    let count = r.count()?;
    v.ptls = r.many(count, ptl_of)?;
    let count = r.count()?;
    v.vps_ols_ptl_idx = r.many(count, Numbers::next)?;
    let flag = v.vps_sublayer_dpb_params_present_flag;
    let count = r.count()?;
    v.dpb_params = r.many(count, |r| dpb_of(r, flag))?;
    let count = r.count()?;
    v.ols_dpbs = r.many(count, ols_dpb_of)?;
    if r.flag()? {
        v.timing_hrd = Some(timing_of(&mut r, count)?);
    }
    let count = r.count()?;
    v.vps_extension_data = r.many(count, Numbers::byte)?;
    (r.rest.len() == 8).then_some(v)
}

fn ptl_of(r: &mut Numbers) -> Option<VvcVpsPtl> {
    let vps_pt_present_flag = r.byte()?;
    let vps_ptl_max_tid = r.byte()?;
    let present = vps_pt_present_flag != 0;
    let mut ptl = VvcProfileTierLevel {
        general_profile_idc: if present { Some(r.byte()?) } else { None },
        general_tier_flag: if present { Some(r.byte()?) } else { None },
        general_level_idc: r.byte()?,
        ptl_frame_only_constraint_flag: r.byte()?,
        ptl_multilayer_enabled_flag: r.byte()?,
        ptl_sublayer_level_present_flag: Vec::new(),
        sublayer_level_idc: Vec::new(),
        general_sub_profile_idc: Vec::new(),
        gci_present_flag: false,
        gci_bits: Vec::new(),
    };
    if present {
        ptl.gci_present_flag = r.flag()?;
        let count = r.count()?;
        ptl.gci_bits = r.many(count, Numbers::flag)?;
    }
    ptl.ptl_sublayer_level_present_flag = r.many(usize::from(vps_ptl_max_tid), Numbers::byte)?;
    let count = ptl.ptl_sublayer_level_present_flag.iter().filter(|&&flag| flag != 0).count();
    ptl.sublayer_level_idc = r.many(count, Numbers::byte)?;
    if present {
        let count = r.count()?;
        ptl.general_sub_profile_idc = r.many(count, Numbers::next)?;
    }
    Some(VvcVpsPtl { vps_pt_present_flag, vps_ptl_max_tid, ptl })
}

fn sublayers(flag: u8, max_tid: u8) -> usize {
    if flag == 0 { 1 } else { usize::from(max_tid) + 1 }
}

fn dpb_of(r: &mut Numbers, flag: u8) -> Option<VvcVpsDpb> {
    let vps_dpb_max_tid = r.byte()?;
    let entries = r.many(sublayers(flag, vps_dpb_max_tid), |r| {
        Some(VvcDpbEntry {
            dpb_max_dec_pic_buffering_minus1: r.next()?,
            dpb_max_num_reorder_pics: r.next()?,
            dpb_max_latency_increase_plus1: r.next()?,
        })
    })?;
    Some(VvcVpsDpb { vps_dpb_max_tid, dpb: VvcDpbParameters { entries } })
}

fn ols_dpb_of(r: &mut Numbers) -> Option<VvcVpsOlsDpb> {
    Some(VvcVpsOlsDpb {
        vps_ols_dpb_pic_width: r.next()?,
        vps_ols_dpb_pic_height: r.next()?,
        vps_ols_dpb_chroma_format: r.byte()?,
        vps_ols_dpb_bitdepth_minus8: r.next()?,
        vps_ols_dpb_params_idx: r.next()?,
    })
}

fn timing_of(r: &mut Numbers, multi: usize) -> Option<VvcVpsTimingHrd> {
    let general = VvcGeneralTimingHrd {
        num_units_in_tick: r.next()?,
        time_scale: r.next()?,
        general_nal_hrd_params_present_flag: r.byte()?,
        general_vcl_hrd_params_present_flag: r.byte()?,
        general_same_pic_timing_in_all_ols_flag: r.byte()?,
        general_du_hrd_params_present_flag: r.byte()?,
        tick_divisor_minus2: r.byte()?,
        bit_rate_scale: r.byte()?,
        cpb_size_scale: r.byte()?,
        cpb_size_du_scale: r.byte()?,
        hrd_cpb_cnt_minus1: r.next()?,
    };
    let flag = r.byte()?;
    let count = r.count()?;
    let entries = r.many(count, |r| {
        let vps_hrd_max_tid = r.byte()?;
        let sublayers = r.many(sublayers(flag, vps_hrd_max_tid), |r| timing_sublayer_of(r, &general))?;
        Some(VvcVpsOlsHrd { vps_hrd_max_tid, ols: VvcOlsTimingHrd { sublayers } })
    })?;
    let vps_ols_timing_hrd_idx = r.many(multi, Numbers::next)?;
    Some(VvcVpsTimingHrd { general, vps_sublayer_cpb_params_present_flag: flag, entries, vps_ols_timing_hrd_idx })
}

fn timing_sublayer_of(r: &mut Numbers, g: &VvcGeneralTimingHrd) -> Option<VvcOlsTimingHrdSublayer> {
    let mut s = VvcOlsTimingHrdSublayer {
        fixed_pic_rate_general_flag: r.byte()?,
        fixed_pic_rate_within_cvs_flag: r.byte()?,
        elemental_duration_in_tc_minus1: r.next()?,
        low_delay_hrd_flag: r.byte()?,
        nal_hrd: None,
        vcl_hrd: None,
    };
    let schedules = |r: &mut Numbers| {
        let count = (g.hrd_cpb_cnt_minus1 as usize).checked_add(1).filter(|&count| count <= r.rest.len())?;
        let schedules = r.many(count, |r| {
            Some(VvcCpbSchedule {
                bit_rate_value_minus1: r.next()?,
                cpb_size_value_minus1: r.next()?,
                du_values_minus1: match g.general_du_hrd_params_present_flag {
                    0 => None,
                    _ => Some((r.next()?, r.next()?)),
                },
                cbr_flag: r.byte()?,
            })
        })?;
        Some(VvcSublayerHrd { schedules })
    };
    if g.general_nal_hrd_params_present_flag != 0 {
        s.nal_hrd = Some(schedules(r)?);
    }
    if g.general_vcl_hrd_params_present_flag != 0 {
        s.vcl_hrd = Some(schedules(r)?);
    }
    Some(s)
}
