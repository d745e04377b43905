// What each number of a well-formed record is, in the record's order: its name, and how it is coded.
use bitstream::h266::{VvcGeneralTimingHrd, VvcOlsTimingHrdSublayer, VvcVps, VvcVpsLayer, VvcVpsPtl, VvcVpsTimingHrd};

#[derive(Clone, Copy, PartialEq, Eq, Debug)]
pub enum Coding {
    // u(width)
    Field(u32),
    // ue(v)
    Code,
    // not coded: it has its inferred value
    Inferred,
    // how many entries follow
    Count,
    // a start of a section, or the total length
    Trailer,
}

#[derive(Clone, Copy, PartialEq, Eq, Debug)]
pub struct Number {
    pub name: &'static str,
    pub value: u32,
    pub coding: Coding,
}

const STARTS: [&str; 8] = ["layers", "rows", "ptls", "ols", "dpb", "timing", "extension", "total length"];

// The numbers of a structure's record; it is one that the Rust writes and reads back.
pub fn numbers_of(v: &VvcVps) -> Vec<Number> {
    let mut walk = Walk { numbers: Vec::new() };
    walk.general(v);
    let mut starts = Vec::new();
    for section in [Walk::layers, Walk::rows, Walk::ptls, Walk::sets, Walk::dpb, Walk::timing, Walk::extension] {
        starts.push(walk.numbers.len());
        section(&mut walk, v);
    }
    starts.push(walk.numbers.len() + 8);
    for (name, start) in STARTS.into_iter().zip(starts) {
        walk.put(name, start as u32, Coding::Trailer);
    }
    walk.numbers
}

struct Walk {
    numbers: Vec<Number>,
}

// Coded, or inferred.
fn if_coded(coded: bool, coding: Coding) -> Coding {
    if coded { coding } else { Coding::Inferred }
}

// An index is coded where there are several entries, but not as many as indices.
fn index(size: usize, count: usize) -> Coding {
    if_coded(size > 1 && size != count, Coding::Code)
}

fn tids_coded(v: &VvcVps) -> bool {
    v.vps_default_ptl_dpb_hrd_max_tid_flag == 0
}

impl Walk {
    fn put(&mut self, name: &'static str, value: impl Into<u32>, coding: Coding) {
        self.numbers.push(Number { name, value: value.into(), coding });
    }

    fn count(&mut self, name: &'static str, count: usize) {
        self.put(name, count as u32, Coding::Count);
    }

    fn flag(&mut self, name: &'static str, value: impl Into<u32>, coded: bool) {
        self.put(name, value, if_coded(coded, Coding::Field(1)));
    }

    fn general(&mut self, v: &VvcVps) {
        let several = v.layers.len() > 1;
        let sublayers = v.vps_max_sublayers_minus1 > 0;
        let independent = v.vps_all_independent_layers_flag == 1;
        let each = v.vps_each_layer_is_an_ols_flag == 1;
        self.count("n", v.layers.len());
        self.put("vps_video_parameter_set_id", v.vps_video_parameter_set_id, Coding::Field(4));
        self.put("vps_max_sublayers_minus1", v.vps_max_sublayers_minus1, Coding::Field(3));
        self.flag("vps_default_ptl_dpb_hrd_max_tid_flag", v.vps_default_ptl_dpb_hrd_max_tid_flag, several && sublayers);
        self.flag("vps_all_independent_layers_flag", v.vps_all_independent_layers_flag, several);
        self.flag("vps_each_layer_is_an_ols_flag", v.vps_each_layer_is_an_ols_flag, several && independent);
        self.put("vps_ols_mode_idc", v.vps_ols_mode_idc, if_coded(several && !independent, Coding::Field(2)));
        self.flag("vps_sublayer_dpb_params_present_flag", v.vps_sublayer_dpb_params_present_flag, !each && sublayers);
        self.flag("vps_extension_flag", v.vps_extension_flag, true);
    }

    fn layers(&mut self, v: &VvcVps) {
        for (i, l) in v.layers.iter().enumerate() {
            self.layer(l, i > 0 && v.vps_all_independent_layers_flag == 0);
        }
    }

    fn layer(&mut self, l: &VvcVpsLayer, flag_coded: bool) {
        let coded = l.vps_max_tid_ref_present_flag == 1;
        self.put("vps_layer_id", l.vps_layer_id, Coding::Field(6));
        self.flag("vps_independent_layer_flag", l.vps_independent_layer_flag, flag_coded);
        self.flag("vps_max_tid_ref_present_flag", l.vps_max_tid_ref_present_flag, l.vps_independent_layer_flag == 0);
        for (&direct, &max_tid) in l.vps_direct_ref_layer_flag.iter().zip(&l.vps_max_tid_il_ref_pics_plus1) {
            self.flag("vps_direct_ref_layer_flag", direct, true);
            self.put("vps_max_tid_il_ref_pics_plus1", max_tid, if_coded(coded && direct == 1, Coding::Field(3)));
        }
    }

    fn rows(&mut self, v: &VvcVps) {
        self.count("rows", v.vps_ols_output_layer_flags.len());
        for &flag in v.vps_ols_output_layer_flags.iter().flatten() {
            self.flag("vps_ols_output_layer_flag", flag, true);
        }
    }

    fn ptls(&mut self, v: &VvcVps) {
        self.count("PTLs", v.ptls.len());
        for (i, slot) in v.ptls.iter().enumerate() {
            self.ptl(slot, i > 0, tids_coded(v));
        }
    }

    fn ptl(&mut self, slot: &VvcVpsPtl, flag_coded: bool, tids: bool) {
        let ptl = &slot.ptl;
        self.flag("vps_pt_present_flag", slot.vps_pt_present_flag, flag_coded);
        self.put("vps_ptl_max_tid", slot.vps_ptl_max_tid, if_coded(tids, Coding::Field(3)));
        if let (Some(profile), Some(tier)) = (ptl.general_profile_idc, ptl.general_tier_flag) {
            self.put("general_profile_idc", profile, Coding::Field(7));
            self.flag("general_tier_flag", tier, true);
        }
        self.put("general_level_idc", ptl.general_level_idc, Coding::Field(8));
        self.flag("ptl_frame_only_constraint_flag", ptl.ptl_frame_only_constraint_flag, true);
        self.flag("ptl_multilayer_enabled_flag", ptl.ptl_multilayer_enabled_flag, true);
        if slot.vps_pt_present_flag == 1 {
            self.flag("gci_present_flag", ptl.gci_present_flag, true);
            self.count("gci length", ptl.gci_bits.len());
            for (i, &bit) in ptl.gci_bits.iter().enumerate() {
                let name = if (69..77).contains(&i) { "gci_num_additional_bits" } else { "gci_bit" };
                self.flag(name, bit, true);
            }
        }
        for &flag in &ptl.ptl_sublayer_level_present_flag {
            self.flag("ptl_sublayer_level_present_flag", flag, true);
        }
        for &level in &ptl.sublayer_level_idc {
            self.put("sublayer_level_idc", level, Coding::Field(8));
        }
        if slot.vps_pt_present_flag == 1 {
            self.count("sub-profiles", ptl.general_sub_profile_idc.len());
            for &sub_profile in &ptl.general_sub_profile_idc {
                self.put("general_sub_profile_idc", sub_profile, Coding::Field(32));
            }
        }
    }

    fn sets(&mut self, v: &VvcVps) {
        let count = v.vps_ols_ptl_idx.len();
        self.count("T", count);
        for &i in &v.vps_ols_ptl_idx {
            self.put("vps_ols_ptl_idx", i, index(v.ptls.len(), count));
        }
    }

    fn dpb(&mut self, v: &VvcVps) {
        self.count("DPB slots", v.dpb_params.len());
        for slot in &v.dpb_params {
            self.put("vps_dpb_max_tid", slot.vps_dpb_max_tid, if_coded(tids_coded(v), Coding::Field(3)));
            for e in &slot.dpb.entries {
                self.put("dpb_max_dec_pic_buffering_minus1", e.dpb_max_dec_pic_buffering_minus1, Coding::Code);
                self.put("dpb_max_num_reorder_pics", e.dpb_max_num_reorder_pics, Coding::Code);
                self.put("dpb_max_latency_increase_plus1", e.dpb_max_latency_increase_plus1, Coding::Code);
            }
        }
        self.count("M'", v.ols_dpbs.len());
        for d in &v.ols_dpbs {
            self.put("vps_ols_dpb_pic_width", d.vps_ols_dpb_pic_width, Coding::Code);
            self.put("vps_ols_dpb_pic_height", d.vps_ols_dpb_pic_height, Coding::Code);
            self.put("vps_ols_dpb_chroma_format", d.vps_ols_dpb_chroma_format, Coding::Field(2));
            self.put("vps_ols_dpb_bitdepth_minus8", d.vps_ols_dpb_bitdepth_minus8, Coding::Code);
            self.put("vps_ols_dpb_params_idx", d.vps_ols_dpb_params_idx, index(v.dpb_params.len(), v.ols_dpbs.len()));
        }
    }

    fn timing(&mut self, v: &VvcVps) {
        let each = v.vps_each_layer_is_an_ols_flag == 1;
        self.flag("vps_timing_hrd_params_present_flag", v.timing_hrd.is_some(), !each);
        let Some(t) = &v.timing_hrd else { return };
        self.general_timing(&t.general);
        self.flag(
            "vps_sublayer_cpb_params_present_flag",
            t.vps_sublayer_cpb_params_present_flag,
            v.vps_max_sublayers_minus1 > 0,
        );
        self.timing_entries(t, tids_coded(v));
    }

    fn general_timing(&mut self, g: &VvcGeneralTimingHrd) {
        let hrd = g.any_hrd_present();
        let du = g.general_du_hrd_params_present_flag == 1;
        self.put("num_units_in_tick", g.num_units_in_tick, Coding::Field(32));
        self.put("time_scale", g.time_scale, Coding::Field(32));
        self.flag("general_nal_hrd_params_present_flag", g.general_nal_hrd_params_present_flag, true);
        self.flag("general_vcl_hrd_params_present_flag", g.general_vcl_hrd_params_present_flag, true);
        self.flag("general_same_pic_timing_in_all_ols_flag", g.general_same_pic_timing_in_all_ols_flag, hrd);
        self.flag("general_du_hrd_params_present_flag", g.general_du_hrd_params_present_flag, hrd);
        self.put("tick_divisor_minus2", g.tick_divisor_minus2, if_coded(du, Coding::Field(8)));
        self.put("bit_rate_scale", g.bit_rate_scale, if_coded(hrd, Coding::Field(4)));
        self.put("cpb_size_scale", g.cpb_size_scale, if_coded(hrd, Coding::Field(4)));
        self.put("cpb_size_du_scale", g.cpb_size_du_scale, if_coded(du, Coding::Field(4)));
        self.put("hrd_cpb_cnt_minus1", g.hrd_cpb_cnt_minus1, if_coded(hrd, Coding::Code));
    }

    fn timing_entries(&mut self, t: &VvcVpsTimingHrd, tids: bool) {
        let g = &t.general;
        self.count("timing entries", t.entries.len());
        for e in &t.entries {
            self.put("vps_hrd_max_tid", e.vps_hrd_max_tid, if_coded(tids, Coding::Field(3)));
            for s in &e.ols.sublayers {
                self.timing_sublayer(s, g.any_hrd_present() && g.hrd_cpb_cnt_minus1 == 0);
            }
        }
        let count = t.vps_ols_timing_hrd_idx.len();
        for &i in &t.vps_ols_timing_hrd_idx {
            self.put("vps_ols_timing_hrd_idx", i, index(t.entries.len(), count));
        }
    }

    fn timing_sublayer(&mut self, s: &VvcOlsTimingHrdSublayer, low_delay: bool) {
        let general = s.fixed_pic_rate_general_flag == 1;
        let within = s.fixed_pic_rate_within_cvs_flag == 1;
        self.flag("fixed_pic_rate_general_flag", s.fixed_pic_rate_general_flag, true);
        self.flag("fixed_pic_rate_within_cvs_flag", s.fixed_pic_rate_within_cvs_flag, !general);
        self.put("elemental_duration_in_tc_minus1", s.elemental_duration_in_tc_minus1, if_coded(within, Coding::Code));
        self.flag("low_delay_hrd_flag", s.low_delay_hrd_flag, !within && low_delay);
        for schedule in s.nal_hrd.iter().chain(&s.vcl_hrd).flat_map(|h| &h.schedules) {
            self.put("bit_rate_value_minus1", schedule.bit_rate_value_minus1, Coding::Code);
            self.put("cpb_size_value_minus1", schedule.cpb_size_value_minus1, Coding::Code);
            if let Some((size, rate)) = schedule.du_values_minus1 {
                self.put("cpb_size_du_value_minus1", size, Coding::Code);
                self.put("bit_rate_du_value_minus1", rate, Coding::Code);
            }
            self.flag("cbr_flag", schedule.cbr_flag, true);
        }
    }

    fn extension(&mut self, v: &VvcVps) {
        self.count("extension bits", v.vps_extension_data.len());
        for &bit in &v.vps_extension_data {
            self.flag("vps_extension_data_flag", bit, true);
        }
    }
}
