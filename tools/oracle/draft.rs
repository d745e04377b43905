// The coded items of a VPS one by one, so that a unit can be made that the Rust's writer would not write.
// A structure that is right gives the Rust's own bytes; one that is wrong is coded all the same.
use bitstream::bit_writer::BitWriter;
use bitstream::h266::{
    VvcCpbSchedule, VvcOlsTimingHrdSublayer, VvcProfileTierLevel, VvcVps, VvcVpsLayer, VvcVpsTimingHrd,
};
use bitstream::nal::rbsp_to_ebsp;

#[derive(Clone, Copy, PartialEq, Eq, Debug)]
pub enum Coded {
    // u(width)
    Field { width: u32, value: u32 },
    // ue(v)
    Code(u32),
    // so many zeros and no more
    Zeros(u32),
    // bits to the byte boundary, all the same
    Alignment(u32),
}

// An item with the standard's name of what it is.
#[derive(Clone, Copy, PartialEq, Eq, Debug)]
pub struct Item {
    pub name: &'static str,
    pub coded: Coded,
}

#[derive(Clone)]
pub struct Draft {
    pub items: Vec<Item>,
}

impl Draft {
    pub fn of(v: &VvcVps) -> Self {
        let mut draft = Self { items: Vec::new() };
        draft.vps(v);
        draft
    }

    // The bytes of the first so many items; the last byte is filled with zeros.
    pub fn rbsp(&self, count: usize) -> Vec<u8> {
        self.written(count).finish()
    }

    // The bits of the first so many items.
    pub fn written(&self, count: usize) -> BitWriter {
        let mut w = BitWriter::new();
        for item in &self.items[..count] {
            match item.coded {
                Coded::Field { width, value } => w.write_bits(value, width),
                Coded::Code(value) => w.write_ue(value).expect("a value that has a code"),
                Coded::Zeros(count) => (0..count).for_each(|_| w.write_bit(0)),
                Coded::Alignment(bit) => {
                    while !w.byte_aligned() {
                        w.write_bit(bit);
                    }
                }
            }
        }
        w
    }

    pub fn unit(&self) -> Vec<u8> {
        unit_of_rbsp(&self.rbsp(self.items.len()))
    }

    // The places of the items of a name.
    pub fn places(&self, name: &str) -> Vec<usize> {
        (0..self.items.len()).filter(|&i| self.items[i].name == name).collect()
    }

    // The places of the codes.
    pub fn codes(&self) -> Vec<usize> {
        (0..self.items.len()).filter(|&i| matches!(self.items[i].coded, Coded::Code(_))).collect()
    }

    fn u(&mut self, name: &'static str, width: u32, value: impl Into<u32>) {
        self.items.push(Item { name, coded: Coded::Field { width, value: value.into() } });
    }

    fn ue(&mut self, name: &'static str, value: u32) {
        self.items.push(Item { name, coded: Coded::Code(value) });
    }

    fn align(&mut self, name: &'static str) {
        self.items.push(Item { name, coded: Coded::Alignment(0) });
    }

    fn vps(&mut self, v: &VvcVps) {
        let several = v.layers.len() > 1;
        let tids = v.vps_default_ptl_dpb_hrd_max_tid_flag == 0;
        self.u("vps_video_parameter_set_id", 4, v.vps_video_parameter_set_id);
        self.u("vps_max_layers_minus1", 6, v.layers.len() as u32 - 1);
        self.u("vps_max_sublayers_minus1", 3, v.vps_max_sublayers_minus1);
        if several && v.vps_max_sublayers_minus1 > 0 {
            self.u("vps_default_ptl_dpb_hrd_max_tid_flag", 1, v.vps_default_ptl_dpb_hrd_max_tid_flag);
        }
        if several {
            self.u("vps_all_independent_layers_flag", 1, v.vps_all_independent_layers_flag);
        }
        for (i, l) in v.layers.iter().enumerate() {
            self.layer(l, i > 0 && v.vps_all_independent_layers_flag == 0);
        }
        if several {
            if v.vps_all_independent_layers_flag == 1 {
                self.u("vps_each_layer_is_an_ols_flag", 1, v.vps_each_layer_is_an_ols_flag);
            }
            if v.vps_all_independent_layers_flag == 0 {
                self.u("vps_ols_mode_idc", 2, v.vps_ols_mode_idc);
            }
            if v.vps_each_layer_is_an_ols_flag == 0 && v.vps_ols_mode_idc == 2 {
                self.u("vps_num_output_layer_sets_minus2", 8, v.vps_ols_output_layer_flags.len() as u32 - 1);
                for &flag in v.vps_ols_output_layer_flags.iter().flatten() {
                    self.u("vps_ols_output_layer_flag", 1, flag);
                }
            }
            self.u("vps_num_ptls_minus1", 8, v.ptls.len() as u32 - 1);
        }
        for (i, slot) in v.ptls.iter().enumerate() {
            if i > 0 {
                self.u("vps_pt_present_flag", 1, slot.vps_pt_present_flag);
            }
            if tids {
                self.u("vps_ptl_max_tid", 3, slot.vps_ptl_max_tid);
            }
        }
        self.align("vps_ptl_alignment_zero_bit");
        for slot in &v.ptls {
            self.profile_tier_level(&slot.ptl, slot.vps_pt_present_flag == 1);
        }
        self.indices("vps_ols_ptl_idx", v.ptls.len(), &v.vps_ols_ptl_idx);
        if v.vps_each_layer_is_an_ols_flag == 0 {
            self.dpb(v, tids);
            self.u("vps_timing_hrd_params_present_flag", 1, u32::from(v.timing_hrd.is_some()));
            if let Some(t) = &v.timing_hrd {
                self.timing(t, tids, v.vps_max_sublayers_minus1 > 0);
            }
        }
        self.u("vps_extension_flag", 1, v.vps_extension_flag);
        for &bit in &v.vps_extension_data {
            self.u("vps_extension_data_flag", 1, bit);
        }
        self.u("rbsp_stop_one_bit", 1, 1u32);
        self.align("rbsp_alignment_zero_bit");
    }

    fn layer(&mut self, l: &VvcVpsLayer, flag_coded: bool) {
        self.u("vps_layer_id", 6, l.vps_layer_id);
        if !flag_coded {
            return;
        }
        self.u("vps_independent_layer_flag", 1, l.vps_independent_layer_flag);
        if l.vps_independent_layer_flag == 0 {
            self.u("vps_max_tid_ref_present_flag", 1, l.vps_max_tid_ref_present_flag);
            for (&direct, &max_tid) in l.vps_direct_ref_layer_flag.iter().zip(&l.vps_max_tid_il_ref_pics_plus1) {
                self.u("vps_direct_ref_layer_flag", 1, direct);
                if l.vps_max_tid_ref_present_flag == 1 && direct == 1 {
                    self.u("vps_max_tid_il_ref_pics_plus1", 3, max_tid);
                }
            }
        }
    }

    fn profile_tier_level(&mut self, ptl: &VvcProfileTierLevel, present: bool) {
        if present {
            self.u("general_profile_idc", 7, ptl.general_profile_idc.unwrap_or(0));
            self.u("general_tier_flag", 1, ptl.general_tier_flag.unwrap_or(0));
        }
        self.u("general_level_idc", 8, ptl.general_level_idc);
        self.u("ptl_frame_only_constraint_flag", 1, ptl.ptl_frame_only_constraint_flag);
        self.u("ptl_multilayer_enabled_flag", 1, ptl.ptl_multilayer_enabled_flag);
        if present {
            self.u("gci_present_flag", 1, u32::from(ptl.gci_present_flag));
            for (i, &bit) in ptl.gci_bits.iter().enumerate() {
                let name = if (69..77).contains(&i) { "gci_num_additional_bits" } else { "gci_bit" };
                self.u(name, 1, u32::from(bit));
            }
            self.align("gci_alignment_zero_bit");
        }
        for &flag in ptl.ptl_sublayer_level_present_flag.iter().rev() {
            self.u("ptl_sublayer_level_present_flag", 1, flag);
        }
        self.align("ptl_reserved_zero_bit");
        for &level in ptl.sublayer_level_idc.iter().rev() {
            self.u("sublayer_level_idc", 8, level);
        }
        if present {
            self.u("ptl_num_sub_profiles", 8, ptl.general_sub_profile_idc.len() as u32);
            for &sub_profile in &ptl.general_sub_profile_idc {
                self.u("general_sub_profile_idc", 32, sub_profile);
            }
        }
    }

    // Indices into so many entries, coded where there are several entries, but not as many as indices.
    fn indices(&mut self, name: &'static str, size: usize, indices: &[u32]) {
        for &index in indices {
            self.index(name, size, indices.len(), index);
        }
    }

    fn index(&mut self, name: &'static str, size: usize, count: usize, index: u32) {
        if size > 1 && size != count {
            self.ue(name, index);
        }
    }

    fn dpb(&mut self, v: &VvcVps, tids: bool) {
        self.ue("vps_num_dpb_params_minus1", v.dpb_params.len() as u32 - 1);
        if v.vps_max_sublayers_minus1 > 0 {
            self.u("vps_sublayer_dpb_params_present_flag", 1, v.vps_sublayer_dpb_params_present_flag);
        }
        for slot in &v.dpb_params {
            if tids {
                self.u("vps_dpb_max_tid", 3, slot.vps_dpb_max_tid);
            }
            for e in &slot.dpb.entries {
                self.ue("dpb_max_dec_pic_buffering_minus1", e.dpb_max_dec_pic_buffering_minus1);
                self.ue("dpb_max_num_reorder_pics", e.dpb_max_num_reorder_pics);
                self.ue("dpb_max_latency_increase_plus1", e.dpb_max_latency_increase_plus1);
            }
        }
        for d in &v.ols_dpbs {
            self.ue("vps_ols_dpb_pic_width", d.vps_ols_dpb_pic_width);
            self.ue("vps_ols_dpb_pic_height", d.vps_ols_dpb_pic_height);
            self.u("vps_ols_dpb_chroma_format", 2, d.vps_ols_dpb_chroma_format);
            self.ue("vps_ols_dpb_bitdepth_minus8", d.vps_ols_dpb_bitdepth_minus8);
            self.index("vps_ols_dpb_params_idx", v.dpb_params.len(), v.ols_dpbs.len(), d.vps_ols_dpb_params_idx);
        }
    }

    fn timing(&mut self, t: &VvcVpsTimingHrd, tids: bool, sublayers: bool) {
        let g = &t.general;
        let du = g.general_du_hrd_params_present_flag == 1;
        self.u("num_units_in_tick", 32, g.num_units_in_tick);
        self.u("time_scale", 32, g.time_scale);
        self.u("general_nal_hrd_params_present_flag", 1, g.general_nal_hrd_params_present_flag);
        self.u("general_vcl_hrd_params_present_flag", 1, g.general_vcl_hrd_params_present_flag);
        if g.any_hrd_present() {
            self.u("general_same_pic_timing_in_all_ols_flag", 1, g.general_same_pic_timing_in_all_ols_flag);
            self.u("general_du_hrd_params_present_flag", 1, g.general_du_hrd_params_present_flag);
            if du {
                self.u("tick_divisor_minus2", 8, g.tick_divisor_minus2);
            }
            self.u("bit_rate_scale", 4, g.bit_rate_scale);
            self.u("cpb_size_scale", 4, g.cpb_size_scale);
            if du {
                self.u("cpb_size_du_scale", 4, g.cpb_size_du_scale);
            }
            self.ue("hrd_cpb_cnt_minus1", g.hrd_cpb_cnt_minus1);
        }
        if sublayers {
            self.u("vps_sublayer_cpb_params_present_flag", 1, t.vps_sublayer_cpb_params_present_flag);
        }
        self.ue("vps_num_ols_timing_hrd_params_minus1", t.entries.len() as u32 - 1);
        for e in &t.entries {
            if tids {
                self.u("vps_hrd_max_tid", 3, e.vps_hrd_max_tid);
            }
            for s in &e.ols.sublayers {
                self.timing_sublayer(s, g.any_hrd_present() && g.hrd_cpb_cnt_minus1 == 0);
            }
        }
        self.indices("vps_ols_timing_hrd_idx", t.entries.len(), &t.vps_ols_timing_hrd_idx);
    }

    fn timing_sublayer(&mut self, s: &VvcOlsTimingHrdSublayer, low_delay: bool) {
        self.u("fixed_pic_rate_general_flag", 1, s.fixed_pic_rate_general_flag);
        if s.fixed_pic_rate_general_flag == 0 {
            self.u("fixed_pic_rate_within_cvs_flag", 1, s.fixed_pic_rate_within_cvs_flag);
        }
        if s.fixed_pic_rate_within_cvs_flag == 1 {
            self.ue("elemental_duration_in_tc_minus1", s.elemental_duration_in_tc_minus1);
        } else if low_delay {
            self.u("low_delay_hrd_flag", 1, s.low_delay_hrd_flag);
        }
        for schedule in s.nal_hrd.iter().chain(&s.vcl_hrd).flat_map(|h| &h.schedules) {
            self.schedule(schedule);
        }
    }

    fn schedule(&mut self, schedule: &VvcCpbSchedule) {
        self.ue("bit_rate_value_minus1", schedule.bit_rate_value_minus1);
        self.ue("cpb_size_value_minus1", schedule.cpb_size_value_minus1);
        if let Some((size, rate)) = schedule.du_values_minus1 {
            self.ue("cpb_size_du_value_minus1", size);
            self.ue("bit_rate_du_value_minus1", rate);
        }
        self.u("cbr_flag", 1, schedule.cbr_flag);
    }
}

// The unit of an RBSP under the header that the Rust writes.
pub fn unit_of_rbsp(rbsp: &[u8]) -> Vec<u8> {
    let mut unit = vec![0x00, 0x71];
    unit.extend(rbsp_to_ebsp(rbsp));
    unit
}
