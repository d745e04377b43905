// Changes of a structure that is written: those that break a rule, each named by what it breaks, and others that leave the
// structure well formed.
use crate::random::Random;
use crate::structures::sets;
use bitstream::h266::{
    VvcCpbSchedule, VvcDpbEntry, VvcDpbParameters, VvcGeneralTimingHrd, VvcOlsTimingHrd, VvcOlsTimingHrdSublayer,
    VvcProfileTierLevel, VvcSublayerHrd, VvcVps, VvcVpsDpb, VvcVpsOlsDpb, VvcVpsOlsHrd, VvcVpsTimingHrd,
};

// Changes a structure, and says whether it has what is to be changed.
type Change = fn(&mut VvcVps, &mut Random) -> Option<()>;

pub struct Changing {
    pub what: &'static str,
    pub change: Change,
}

// A change that breaks a rule of the reader, with the number of its refusal.
pub struct RuleBreaking {
    pub number: u32,
    pub change: Change,
}

// ── Help ────────────────────────────────────────────────────────────────

fn some<'a, T>(items: &'a mut [T], random: &mut Random) -> Option<&'a mut T> {
    if items.is_empty() {
        return None;
    }
    let i = random.below(items.len());
    Some(&mut items[i])
}

fn only_if(condition: bool) -> Option<()> {
    condition.then_some(())
}

fn one_of(random: &mut Random, values: &[u32]) -> u32 {
    values[random.below(values.len())]
}

// As many indices as there are to be: those not coded have their inferred value.
fn settle_indices(indices: &mut Vec<u32>, size: usize, count: usize) {
    indices.resize(count, 0);
    for (i, index) in indices.iter_mut().enumerate() {
        *index = match size {
            0 | 1 => 0,
            _ if size == count => i as u32,
            _ => (*index).min(size as u32 - 1),
        };
    }
}

// As many indices and entries as the sets ask for.
pub fn settle(v: &mut VvcVps) {
    let (total, multi) = sets(v);
    settle_indices(&mut v.vps_ols_ptl_idx, v.ptls.len(), total);
    v.ols_dpbs.resize(multi, VvcVpsOlsDpb::default());
    let mut indices: Vec<u32> = v.ols_dpbs.iter().map(|d| d.vps_ols_dpb_params_idx).collect();
    settle_indices(&mut indices, v.dpb_params.len(), multi);
    for (d, index) in v.ols_dpbs.iter_mut().zip(indices) {
        d.vps_ols_dpb_params_idx = index;
    }
    if let Some(t) = &mut v.timing_hrd {
        settle_indices(&mut t.vps_ols_timing_hrd_idx, t.entries.len(), multi);
    }
}

fn each_layer(v: &VvcVps) -> bool {
    v.vps_each_layer_is_an_ols_flag == 1
}

fn tids_coded(v: &VvcVps) -> bool {
    v.vps_default_ptl_dpb_hrd_max_tid_flag == 0
}

fn mode_two(v: &VvcVps) -> bool {
    !each_layer(v) && v.vps_ols_mode_idc == 2
}

// A max tid over the most that there may be, up to 7.
fn tid_over(v: &VvcVps, random: &mut Random) -> u8 {
    let most = v.vps_max_sublayers_minus1;
    most + 1 + random.below(usize::from(7 - most)) as u8
}

// A max tid of a table's slot, with as many parts as it asks for.
fn put_ptl_tid(ptl: &mut VvcProfileTierLevel, tid: u8) {
    ptl.ptl_sublayer_level_present_flag.resize(usize::from(tid), 0);
    let flagged = ptl.ptl_sublayer_level_present_flag.iter().filter(|&&flag| flag == 1).count();
    ptl.sublayer_level_idc.truncate(flagged);
}

fn put_dpb_tid(slot: &mut VvcVpsDpb, by_sublayer: bool, tid: u8) {
    slot.vps_dpb_max_tid = tid;
    if by_sublayer {
        let last = slot.dpb.entries[0];
        slot.dpb.entries.resize(usize::from(tid) + 1, last);
    }
}

fn put_timing_tid(entry: &mut VvcVpsOlsHrd, by_sublayer: bool, tid: u8) {
    entry.vps_hrd_max_tid = tid;
    if by_sublayer {
        let last = entry.ols.sublayers[0].clone();
        entry.ols.sublayers.resize(usize::from(tid) + 1, last);
    }
}

fn triples<'a>(v: &'a mut VvcVps, random: &mut Random) -> Option<&'a mut VvcDpbEntry> {
    let slot = some(&mut v.dpb_params, random)?;
    some(&mut slot.dpb.entries, random)
}

fn sublayer<'a>(v: &'a mut VvcVps, random: &mut Random) -> Option<&'a mut VvcOlsTimingHrdSublayer> {
    let entry = some(&mut v.timing_hrd.as_mut()?.entries, random)?;
    some(&mut entry.ols.sublayers, random)
}

fn hrd<'a>(v: &'a mut VvcVps, random: &mut Random) -> Option<&'a mut VvcSublayerHrd> {
    let s = sublayer(v, random)?;
    let mut hrds: Vec<&mut VvcSublayerHrd> = s.nal_hrd.iter_mut().chain(&mut s.vcl_hrd).collect();
    if hrds.is_empty() {
        return None;
    }
    let i = random.below(hrds.len());
    Some(hrds.swap_remove(i))
}

fn constrained<'a>(v: &'a mut VvcVps, random: &mut Random) -> Option<&'a mut VvcProfileTierLevel> {
    let mut ptls: Vec<&mut VvcProfileTierLevel> =
        v.ptls.iter_mut().map(|slot| &mut slot.ptl).filter(|ptl| ptl.gci_present_flag).collect();
    if ptls.is_empty() {
        return None;
    }
    let i = random.below(ptls.len());
    Some(ptls.swap_remove(i))
}

fn slot_of(tid: u8) -> VvcVpsDpb {
    let triple = VvcDpbEntry {
        dpb_max_dec_pic_buffering_minus1: 0,
        dpb_max_num_reorder_pics: 0,
        dpb_max_latency_increase_plus1: 0,
    };
    VvcVpsDpb { vps_dpb_max_tid: tid, dpb: VvcDpbParameters { entries: vec![triple] } }
}

// ── Rules of refusals 5 to 26 ───────────────────────────────────────────

// All but 12, which no record can break, and 14: a number that no code holds.
pub const RULES: [RuleBreaking; 22] = [
    RuleBreaking { number: 5, change: seven_sublayers },
    RuleBreaking { number: 6, change: layer_id_not_rising },
    RuleBreaking { number: 7, change: no_direct_reference },
    RuleBreaking { number: 8, change: mode_three },
    RuleBreaking { number: 9, change: row_without_output },
    RuleBreaking { number: 10, change: more_ptls_than_sets },
    RuleBreaking { number: 11, change: ptl_tid_over },
    RuleBreaking { number: 13, change: ptl_index_over },
    RuleBreaking { number: 15, change: more_slots_than_sets },
    RuleBreaking { number: 15, change: no_multi_layer_set },
    RuleBreaking { number: 16, change: dpb_tid_over },
    RuleBreaking { number: 17, change: buffering_over },
    RuleBreaking { number: 18, change: reorder_over },
    RuleBreaking { number: 19, change: depth_over },
    RuleBreaking { number: 20, change: dpb_index_over },
    RuleBreaking { number: 21, change: no_tick },
    RuleBreaking { number: 22, change: schedules_over },
    RuleBreaking { number: 23, change: more_entries_than_sets },
    RuleBreaking { number: 24, change: timing_tid_over },
    RuleBreaking { number: 25, change: duration_over },
    RuleBreaking { number: 26, change: timing_index_over },
    RuleBreaking { number: 9, change: further_row_without_output },
];

// With all that is inferred from it.
fn seven_sublayers(v: &mut VvcVps, _: &mut Random) -> Option<()> {
    only_if(v.vps_max_sublayers_minus1 == 6 && !tids_coded(v))?;
    v.vps_max_sublayers_minus1 = 7;
    for l in &mut v.layers {
        let coded = l.vps_max_tid_ref_present_flag == 1;
        for (&direct, max_tid) in l.vps_direct_ref_layer_flag.iter().zip(&mut l.vps_max_tid_il_ref_pics_plus1) {
            if !(coded && direct == 1) {
                *max_tid = 8;
            }
        }
    }
    for slot in &mut v.ptls {
        slot.vps_ptl_max_tid = 7;
        put_ptl_tid(&mut slot.ptl, 7);
    }
    let by_sublayer = v.vps_sublayer_dpb_params_present_flag == 1;
    v.dpb_params.iter_mut().for_each(|slot| put_dpb_tid(slot, by_sublayer, 7));
    if let Some(t) = &mut v.timing_hrd {
        let by_sublayer = t.vps_sublayer_cpb_params_present_flag == 1;
        t.entries.iter_mut().for_each(|entry| put_timing_tid(entry, by_sublayer, 7));
    }
    Some(())
}

fn layer_id_not_rising(v: &mut VvcVps, random: &mut Random) -> Option<()> {
    only_if(v.layers.len() > 1)?;
    let i = 1 + random.below(v.layers.len() - 1);
    let before = v.layers[i - 1].vps_layer_id;
    v.layers[i].vps_layer_id = [before, before.saturating_sub(1), 0][random.below(3)];
    Some(())
}

fn no_direct_reference(v: &mut VvcVps, random: &mut Random) -> Option<()> {
    let inferred = v.vps_max_sublayers_minus1 + 1;
    let mut dependent: Vec<_> = v.layers.iter_mut().filter(|l| l.vps_independent_layer_flag == 0).collect();
    let l = some(&mut dependent, random)?;
    l.vps_direct_ref_layer_flag.fill(0);
    l.vps_max_tid_il_ref_pics_plus1.fill(inferred);
    settle(v);
    Some(())
}

fn mode_three(v: &mut VvcVps, _: &mut Random) -> Option<()> {
    only_if(v.layers.len() > 1 && v.vps_all_independent_layers_flag == 0)?;
    v.vps_ols_mode_idc = 3;
    Some(())
}

fn row_without_output(v: &mut VvcVps, random: &mut Random) -> Option<()> {
    some(&mut v.vps_ols_output_layer_flags, random)?.fill(0);
    settle(v);
    Some(())
}

fn further_row_without_output(v: &mut VvcVps, _: &mut Random) -> Option<()> {
    only_if(mode_two(v))?;
    v.vps_ols_output_layer_flags.push(vec![0; v.layers.len()]);
    settle(v);
    Some(())
}

fn more_ptls_than_sets(v: &mut VvcVps, random: &mut Random) -> Option<()> {
    let (total, _) = sets(v);
    only_if(v.layers.len() > 1 && total < 8)?;
    let mut another = v.ptls.last()?.clone();
    another.ptl.gci_present_flag = false;
    another.ptl.gci_bits.clear();
    v.ptls.resize(total + 1 + random.below(2), another);
    settle(v);
    Some(())
}

fn ptl_tid_over(v: &mut VvcVps, random: &mut Random) -> Option<()> {
    only_if(tids_coded(v))?;
    let tid = tid_over(v, random);
    let slot = some(&mut v.ptls, random)?;
    slot.vps_ptl_max_tid = tid;
    put_ptl_tid(&mut slot.ptl, tid);
    Some(())
}

// An index that is coded, at the first that is too great or far over it.
fn index_over(indices: &mut [u32], size: usize, random: &mut Random) -> Option<()> {
    only_if(size > 1 && size != indices.len())?;
    let value = one_of(random, &[size as u32, size as u32, size as u32 + 256, u32::MAX - 1]);
    *some(indices, random)? = value;
    Some(())
}

fn ptl_index_over(v: &mut VvcVps, random: &mut Random) -> Option<()> {
    index_over(&mut v.vps_ols_ptl_idx, v.ptls.len(), random)
}

fn more_slots_than_sets(v: &mut VvcVps, random: &mut Random) -> Option<()> {
    let (_, multi) = sets(v);
    only_if(!each_layer(v) && multi < 8)?;
    let another = v.dpb_params.last()?.clone();
    v.dpb_params.resize(multi + 1 + random.below(2), another);
    settle(v);
    Some(())
}

fn no_multi_layer_set(v: &mut VvcVps, _: &mut Random) -> Option<()> {
    only_if(mode_two(v) && v.vps_all_independent_layers_flag == 1)?;
    for row in &mut v.vps_ols_output_layer_flags {
        row.fill(0);
        row[0] = 1;
    }
    settle(v);
    Some(())
}

fn dpb_tid_over(v: &mut VvcVps, random: &mut Random) -> Option<()> {
    only_if(tids_coded(v))?;
    let tid = tid_over(v, random);
    let by_sublayer = v.vps_sublayer_dpb_params_present_flag == 1;
    put_dpb_tid(some(&mut v.dpb_params, random)?, by_sublayer, tid);
    Some(())
}

fn buffering_over(v: &mut VvcVps, random: &mut Random) -> Option<()> {
    triples(v, random)?.dpb_max_dec_pic_buffering_minus1 = one_of(random, &[16, 16, 272, u32::MAX - 1]);
    Some(())
}

fn reorder_over(v: &mut VvcVps, random: &mut Random) -> Option<()> {
    let triple = triples(v, random)?;
    let least = triple.dpb_max_dec_pic_buffering_minus1 + 1;
    triple.dpb_max_num_reorder_pics = one_of(random, &[least, least, 16, u32::MAX - 1]);
    Some(())
}

fn depth_over(v: &mut VvcVps, random: &mut Random) -> Option<()> {
    some(&mut v.ols_dpbs, random)?.vps_ols_dpb_bitdepth_minus8 = one_of(random, &[9, 9, 256, u32::MAX - 1]);
    Some(())
}

fn dpb_index_over(v: &mut VvcVps, random: &mut Random) -> Option<()> {
    let mut indices: Vec<u32> = v.ols_dpbs.iter().map(|d| d.vps_ols_dpb_params_idx).collect();
    index_over(&mut indices, v.dpb_params.len(), random)?;
    for (d, index) in v.ols_dpbs.iter_mut().zip(indices) {
        d.vps_ols_dpb_params_idx = index;
    }
    Some(())
}

fn no_tick(v: &mut VvcVps, random: &mut Random) -> Option<()> {
    let g = &mut v.timing_hrd.as_mut()?.general;
    let which = random.below(3);
    if which != 0 {
        g.num_units_in_tick = 0;
    }
    if which != 1 {
        g.time_scale = 0;
    }
    Some(())
}

// 33 schedules of each HRD, and no flag that only one schedule has.
fn schedules_over(v: &mut VvcVps, _: &mut Random) -> Option<()> {
    let t = v.timing_hrd.as_mut()?;
    only_if(t.general.any_hrd_present() && t.entries.len() == 1 && t.entries[0].ols.sublayers.len() < 3)?;
    t.general.hrd_cpb_cnt_minus1 = 32;
    for s in t.entries.iter_mut().flat_map(|e| &mut e.ols.sublayers) {
        s.low_delay_hrd_flag = 0;
        for h in s.nal_hrd.iter_mut().chain(&mut s.vcl_hrd) {
            let another = h.schedules[0].clone();
            h.schedules.resize(33, another);
        }
    }
    Some(())
}

fn more_entries_than_sets(v: &mut VvcVps, random: &mut Random) -> Option<()> {
    let (_, multi) = sets(v);
    let t = v.timing_hrd.as_mut()?;
    only_if(multi < 8)?;
    let another = t.entries.last()?.clone();
    t.entries.resize(multi + 1 + random.below(2), another);
    settle(v);
    Some(())
}

fn timing_tid_over(v: &mut VvcVps, random: &mut Random) -> Option<()> {
    only_if(tids_coded(v))?;
    let tid = tid_over(v, random);
    let t = v.timing_hrd.as_mut()?;
    let by_sublayer = t.vps_sublayer_cpb_params_present_flag == 1;
    put_timing_tid(some(&mut t.entries, random)?, by_sublayer, tid);
    Some(())
}

fn duration_over(v: &mut VvcVps, random: &mut Random) -> Option<()> {
    let s = sublayer(v, random)?;
    only_if(s.fixed_pic_rate_within_cvs_flag == 1)?;
    s.elemental_duration_in_tc_minus1 = one_of(random, &[2048, 2048, 65_536, u32::MAX - 1]);
    Some(())
}

fn timing_index_over(v: &mut VvcVps, random: &mut Random) -> Option<()> {
    let t = v.timing_hrd.as_mut()?;
    index_over(&mut t.vps_ols_timing_hrd_idx, t.entries.len(), random)
}

// ── Parts that are not coded ────────────────────────────────────────────

// Each is there with all its numbers in place, so that only its being there is wrong.
pub const UNCODED: [Changing; 13] = [
    Changing { what: "another PTL max tid with its flags", change: another_ptl_tid },
    Changing { what: "another DPB max tid with its triples", change: another_dpb_tid },
    Changing { what: "another timing max tid with its sublayers", change: another_timing_tid },
    Changing { what: "the first PTL without profile and tier", change: first_ptl_not_present },
    Changing { what: "a dependent layer under all-independent 1", change: dependent_under_independent },
    Changing { what: "two PTLs of one layer", change: two_ptls_of_one_layer },
    Changing { what: "a row outside mode 2", change: row_outside_mode_two },
    Changing { what: "a DPB slot under each-layer 1", change: slot_under_each_layer },
    Changing { what: "a DPB entry under each-layer 1", change: entry_under_each_layer },
    Changing { what: "timing under each-layer 1", change: timing_under_each_layer },
    Changing { what: "each-layer 1 with dependent layers", change: each_layer_of_dependent },
    Changing { what: "mode 0 or 1 under all-independent 1", change: mode_under_independent },
    Changing { what: "one layer under each-layer 0", change: one_layer_not_each },
];

// Another max tid than that inferred, within the rule.
fn other_tid(v: &VvcVps, random: &mut Random) -> Option<u8> {
    let most = v.vps_max_sublayers_minus1;
    only_if(!tids_coded(v))?;
    Some(if most > 0 && random.below(2) == 0 { random.below(usize::from(most)) as u8 } else { most + 1 })
}

fn another_ptl_tid(v: &mut VvcVps, random: &mut Random) -> Option<()> {
    let tid = other_tid(v, random)?;
    let slot = some(&mut v.ptls, random)?;
    slot.vps_ptl_max_tid = tid;
    put_ptl_tid(&mut slot.ptl, tid);
    Some(())
}

fn another_dpb_tid(v: &mut VvcVps, random: &mut Random) -> Option<()> {
    let tid = other_tid(v, random)?;
    let by_sublayer = v.vps_sublayer_dpb_params_present_flag == 1;
    put_dpb_tid(some(&mut v.dpb_params, random)?, by_sublayer, tid);
    Some(())
}

fn another_timing_tid(v: &mut VvcVps, random: &mut Random) -> Option<()> {
    let tid = other_tid(v, random)?;
    let t = v.timing_hrd.as_mut()?;
    let by_sublayer = t.vps_sublayer_cpb_params_present_flag == 1;
    put_timing_tid(some(&mut t.entries, random)?, by_sublayer, tid);
    Some(())
}

fn first_ptl_not_present(v: &mut VvcVps, _: &mut Random) -> Option<()> {
    let slot = v.ptls.first_mut()?;
    slot.vps_pt_present_flag = 0;
    slot.ptl.general_profile_idc = None;
    slot.ptl.general_tier_flag = None;
    slot.ptl.gci_present_flag = false;
    slot.ptl.gci_bits.clear();
    slot.ptl.general_sub_profile_idc.clear();
    Some(())
}

fn dependent_under_independent(v: &mut VvcVps, random: &mut Random) -> Option<()> {
    only_if(v.vps_all_independent_layers_flag == 1)?;
    let i = random.below(v.layers.len());
    let inferred = v.vps_max_sublayers_minus1 + 1;
    let l = &mut v.layers[i];
    l.vps_independent_layer_flag = 0;
    l.vps_direct_ref_layer_flag = vec![1; i];
    l.vps_max_tid_il_ref_pics_plus1 = vec![inferred; i];
    Some(())
}

fn two_ptls_of_one_layer(v: &mut VvcVps, random: &mut Random) -> Option<()> {
    only_if(v.layers.len() == 1)?;
    let another = v.ptls[0].clone();
    v.ptls.push(another);
    if random.below(2) == 0 {
        v.vps_ols_ptl_idx = vec![0, 1];
    }
    Some(())
}

fn row_outside_mode_two(v: &mut VvcVps, random: &mut Random) -> Option<()> {
    only_if(!mode_two(v))?;
    v.vps_ols_output_layer_flags.push(vec![1; v.layers.len()]);
    if random.below(2) == 0 {
        settle(v);
    }
    Some(())
}

fn slot_under_each_layer(v: &mut VvcVps, _: &mut Random) -> Option<()> {
    only_if(each_layer(v))?;
    v.dpb_params.push(slot_of(v.vps_max_sublayers_minus1));
    Some(())
}

fn entry_under_each_layer(v: &mut VvcVps, _: &mut Random) -> Option<()> {
    only_if(each_layer(v))?;
    v.ols_dpbs.push(VvcVpsOlsDpb::default());
    Some(())
}

fn timing_under_each_layer(v: &mut VvcVps, random: &mut Random) -> Option<()> {
    only_if(each_layer(v))?;
    let sublayers = vec![VvcOlsTimingHrdSublayer::default()];
    let entry = VvcVpsOlsHrd { vps_hrd_max_tid: v.vps_max_sublayers_minus1, ols: VvcOlsTimingHrd { sublayers } };
    v.timing_hrd = Some(VvcVpsTimingHrd {
        general: VvcGeneralTimingHrd { num_units_in_tick: 1, time_scale: 1, ..Default::default() },
        entries: vec![entry; random.below(2)],
        ..Default::default()
    });
    Some(())
}

fn each_layer_of_dependent(v: &mut VvcVps, _: &mut Random) -> Option<()> {
    only_if(v.vps_all_independent_layers_flag == 0)?;
    v.vps_each_layer_is_an_ols_flag = 1;
    v.vps_ols_output_layer_flags.clear();
    v.dpb_params.clear();
    v.timing_hrd = None;
    v.vps_sublayer_dpb_params_present_flag = 0;
    v.vps_ols_mode_idc = 2;
    v.ptls.truncate(v.layers.len());
    settle(v);
    Some(())
}

fn mode_under_independent(v: &mut VvcVps, random: &mut Random) -> Option<()> {
    only_if(mode_two(v) && v.vps_all_independent_layers_flag == 1)?;
    v.vps_ols_mode_idc = random.below(2) as u8;
    v.vps_ols_output_layer_flags.clear();
    v.ptls.truncate(1);
    v.dpb_params.truncate(1);
    if let Some(t) = &mut v.timing_hrd {
        t.entries.truncate(1);
    }
    settle(v);
    Some(())
}

fn one_layer_not_each(v: &mut VvcVps, random: &mut Random) -> Option<()> {
    only_if(v.layers.len() == 1)?;
    v.vps_each_layer_is_an_ols_flag = 0;
    match random.below(3) {
        0 => {}
        1 => v.dpb_params.push(slot_of(v.vps_max_sublayers_minus1)),
        _ => {
            v.vps_ols_output_layer_flags.push(vec![1]);
            v.dpb_params.push(slot_of(v.vps_max_sublayers_minus1));
            settle(v);
        }
    }
    Some(())
}

// ── Counts ──────────────────────────────────────────────────────────────

// An entry more or less than there is to be, with all the numbers of the entry.
pub const COUNTS: [Changing; 16] = [
    Changing { what: "a layer more or less", change: layer_more_or_less },
    Changing { what: "a pair of references more or less", change: pair_more_or_less },
    Changing { what: "a row more or less", change: row_more_or_less },
    Changing { what: "no row in mode 2", change: no_row },
    Changing { what: "a flag of a row more or less", change: row_flag_more_or_less },
    Changing { what: "no PTL", change: no_ptl },
    Changing { what: "a sublayer flag more or less", change: sublayer_flag_more_or_less },
    Changing { what: "a sublayer level more or less", change: sublayer_level_more_or_less },
    Changing { what: "a set's PTL index more or less", change: ptl_index_more_or_less },
    Changing { what: "no DPB slot", change: no_slot },
    Changing { what: "a triple more or less", change: triple_more_or_less },
    Changing { what: "a DPB entry more or less", change: dpb_entry_more_or_less },
    Changing { what: "no timing entry", change: no_timing_entry },
    Changing { what: "a timing sublayer more or less", change: timing_sublayer_more_or_less },
    Changing { what: "a schedule more or less", change: schedule_more_or_less },
    Changing { what: "a timing index more or less", change: timing_index_more_or_less },
];

fn more_or_less<T: Clone>(items: &mut Vec<T>, another: T, random: &mut Random) {
    if items.is_empty() || random.below(2) == 0 {
        items.push(another);
    } else {
        items.pop();
    }
}

fn layer_more_or_less(v: &mut VvcVps, random: &mut Random) -> Option<()> {
    let mut another = v.layers[0].clone();
    another.vps_layer_id = 63;
    only_if(v.layers.last()?.vps_layer_id < 63)?;
    more_or_less(&mut v.layers, another, random);
    Some(())
}

fn pair_more_or_less(v: &mut VvcVps, random: &mut Random) -> Option<()> {
    let inferred = v.vps_max_sublayers_minus1 + 1;
    let mut dependent: Vec<_> = v.layers.iter_mut().filter(|l| l.vps_independent_layer_flag == 0).collect();
    let l = some(&mut dependent, random)?;
    if random.below(2) == 0 {
        l.vps_direct_ref_layer_flag.push(0);
        l.vps_max_tid_il_ref_pics_plus1.push(inferred);
    } else {
        l.vps_direct_ref_layer_flag.pop();
        l.vps_max_tid_il_ref_pics_plus1.pop();
    }
    Some(())
}

fn row_more_or_less(v: &mut VvcVps, random: &mut Random) -> Option<()> {
    let another = v.vps_ols_output_layer_flags.last()?.clone();
    more_or_less(&mut v.vps_ols_output_layer_flags, another, random);
    Some(())
}

fn no_row(v: &mut VvcVps, _: &mut Random) -> Option<()> {
    only_if(mode_two(v))?;
    v.vps_ols_output_layer_flags.clear();
    v.ptls.truncate(1);
    settle(v);
    Some(())
}

fn row_flag_more_or_less(v: &mut VvcVps, random: &mut Random) -> Option<()> {
    let row = some(&mut v.vps_ols_output_layer_flags, random)?;
    more_or_less(row, 0, random);
    Some(())
}

fn no_ptl(v: &mut VvcVps, _: &mut Random) -> Option<()> {
    v.ptls.clear();
    settle(v);
    Some(())
}

fn sublayer_flag_more_or_less(v: &mut VvcVps, random: &mut Random) -> Option<()> {
    let slot = some(&mut v.ptls, random)?;
    more_or_less(&mut slot.ptl.ptl_sublayer_level_present_flag, 0, random);
    Some(())
}

fn sublayer_level_more_or_less(v: &mut VvcVps, random: &mut Random) -> Option<()> {
    let slot = some(&mut v.ptls, random)?;
    more_or_less(&mut slot.ptl.sublayer_level_idc, 51, random);
    Some(())
}

fn ptl_index_more_or_less(v: &mut VvcVps, random: &mut Random) -> Option<()> {
    more_or_less(&mut v.vps_ols_ptl_idx, 0, random);
    Some(())
}

fn no_slot(v: &mut VvcVps, _: &mut Random) -> Option<()> {
    only_if(!each_layer(v))?;
    v.dpb_params.clear();
    settle(v);
    Some(())
}

fn triple_more_or_less(v: &mut VvcVps, random: &mut Random) -> Option<()> {
    let slot = some(&mut v.dpb_params, random)?;
    let another = slot.dpb.entries[0];
    more_or_less(&mut slot.dpb.entries, another, random);
    Some(())
}

fn dpb_entry_more_or_less(v: &mut VvcVps, random: &mut Random) -> Option<()> {
    only_if(!each_layer(v))?;
    more_or_less(&mut v.ols_dpbs, VvcVpsOlsDpb::default(), random);
    if let (Some(t), true) = (&mut v.timing_hrd, random.below(2) == 0) {
        t.vps_ols_timing_hrd_idx.resize(v.ols_dpbs.len(), 0);
    }
    Some(())
}

fn no_timing_entry(v: &mut VvcVps, _: &mut Random) -> Option<()> {
    v.timing_hrd.as_mut()?.entries.clear();
    settle(v);
    Some(())
}

fn timing_sublayer_more_or_less(v: &mut VvcVps, random: &mut Random) -> Option<()> {
    let entry = some(&mut v.timing_hrd.as_mut()?.entries, random)?;
    let another = entry.ols.sublayers[0].clone();
    more_or_less(&mut entry.ols.sublayers, another, random);
    Some(())
}

fn schedule_more_or_less(v: &mut VvcVps, random: &mut Random) -> Option<()> {
    let h = hrd(v, random)?;
    let another: VvcCpbSchedule = h.schedules[0].clone();
    more_or_less(&mut h.schedules, another, random);
    Some(())
}

fn timing_index_more_or_less(v: &mut VvcVps, random: &mut Random) -> Option<()> {
    more_or_less(&mut v.timing_hrd.as_mut()?.vps_ols_timing_hrd_idx, 0, random);
    Some(())
}

// ── Constraints and extension ───────────────────────────────────────────

pub const CONSTRAINTS: [Changing; 6] = [
    Changing { what: "a bit more or less than 77 + A", change: constraint_more_or_less },
    Changing { what: "a byte of bits more than 77 + A", change: constraint_byte_more },
    Changing { what: "another A", change: another_additional },
    Changing { what: "bits without their flag", change: constraints_without_flag },
    Changing { what: "the flag without bits", change: constraint_flag_alone },
    Changing { what: "under 77 bits", change: constraints_cut },
];

pub const OTHER_CONSTRAINTS: [Changing; 1] = [Changing { what: "another bit outside A", change: another_constraint }];

fn constraint_more_or_less(v: &mut VvcVps, random: &mut Random) -> Option<()> {
    more_or_less(&mut constrained(v, random)?.gci_bits, false, random);
    Some(())
}

fn constraint_byte_more(v: &mut VvcVps, random: &mut Random) -> Option<()> {
    constrained(v, random)?.gci_bits.extend([false; 8]);
    Some(())
}

fn another_additional(v: &mut VvcVps, random: &mut Random) -> Option<()> {
    let bit = 69 + random.below(8);
    let bits = &mut constrained(v, random)?.gci_bits;
    bits[bit] = !bits[bit];
    Some(())
}

fn constraints_without_flag(v: &mut VvcVps, random: &mut Random) -> Option<()> {
    constrained(v, random)?.gci_present_flag = false;
    Some(())
}

fn constraint_flag_alone(v: &mut VvcVps, random: &mut Random) -> Option<()> {
    let mut ptls: Vec<_> = v.ptls.iter_mut().filter(|slot| slot.vps_pt_present_flag == 1).collect();
    let slot = some(&mut ptls, random)?;
    slot.ptl.gci_present_flag = true;
    slot.ptl.gci_bits.clear();
    Some(())
}

fn constraints_cut(v: &mut VvcVps, random: &mut Random) -> Option<()> {
    let length = [1, 69, 70, 75, 76][random.below(5)];
    constrained(v, random)?.gci_bits.truncate(length);
    Some(())
}

fn another_constraint(v: &mut VvcVps, random: &mut Random) -> Option<()> {
    let bits = &mut constrained(v, random)?.gci_bits;
    let bit = random.below(bits.len() - 8);
    let bit = if bit < 69 { bit } else { bit + 8 };
    bits[bit] = !bits[bit];
    Some(())
}

pub const EXTENSION: [Changing; 2] = [
    Changing { what: "bits without their flag", change: extension_without_flag },
    Changing { what: "zeros without the flag", change: extension_zeros_without_flag },
];

// The bits may end in 0 or in 1.
pub const OTHER_EXTENSION: [Changing; 4] = [
    Changing { what: "zeros at the end", change: extension_ends_in_zeros },
    Changing { what: "zeros alone", change: extension_of_zeros },
    Changing { what: "no bits", change: extension_without_bits },
    Changing { what: "other bits", change: other_extension },
];

fn extension_without_flag(v: &mut VvcVps, random: &mut Random) -> Option<()> {
    v.vps_extension_flag = 0;
    v.vps_extension_data = (0..random.below(4)).map(|_| random.below(2) as u8).collect();
    v.vps_extension_data.push(1);
    Some(())
}

fn extension_zeros_without_flag(v: &mut VvcVps, random: &mut Random) -> Option<()> {
    v.vps_extension_flag = 0;
    v.vps_extension_data = vec![0; 1 + random.below(9)];
    Some(())
}

fn extension_ends_in_zeros(v: &mut VvcVps, random: &mut Random) -> Option<()> {
    v.vps_extension_flag = 1;
    v.vps_extension_data.push(1);
    v.vps_extension_data.extend(vec![0; 1 + random.below(9)]);
    Some(())
}

fn extension_of_zeros(v: &mut VvcVps, random: &mut Random) -> Option<()> {
    v.vps_extension_flag = 1;
    v.vps_extension_data = vec![0; 1 + random.below(9)];
    Some(())
}

fn extension_without_bits(v: &mut VvcVps, random: &mut Random) -> Option<()> {
    v.vps_extension_flag = random.below(2) as u8;
    v.vps_extension_data.clear();
    Some(())
}

fn other_extension(v: &mut VvcVps, random: &mut Random) -> Option<()> {
    v.vps_extension_flag = 1;
    v.vps_extension_data = (0..1 + random.below(30)).map(|_| random.below(2) as u8).collect();
    Some(())
}
