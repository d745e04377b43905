// VPS structures of every mode that look random; the Rust's writer takes each whose extension doesn't end in 0.
use crate::extension_rule::ends_in_zero;
use crate::random::Random;
use bitstream::h266::{
    VvcCpbSchedule, VvcDpbEntry, VvcDpbParameters, VvcGeneralTimingHrd, VvcOlsTimingHrd, VvcOlsTimingHrdSublayer,
    VvcProfileTierLevel, VvcSublayerHrd, VvcVps, VvcVpsDpb, VvcVpsLayer, VvcVpsOlsDpb, VvcVpsOlsHrd, VvcVpsPtl,
    VvcVpsTimingHrd,
};

// How the output layer sets are given.
#[derive(Clone, Copy, PartialEq, Eq, PartialOrd, Ord, Debug)]
pub enum Mode {
    OneLayer,
    EachLayer,
    Zero,
    One,
    Two,
    // mode 2 inferred, of layers that are all independent
    TwoInferred,
}

impl Mode {
    pub fn name(self) -> &'static str {
        match self {
            Mode::OneLayer => "one layer",
            Mode::EachLayer => "each layer a set",
            Mode::Zero => "mode 0",
            Mode::One => "mode 1",
            Mode::Two => "mode 2",
            Mode::TwoInferred => "mode 2 inferred",
        }
    }
}

pub const MODES: [Mode; 6] = [Mode::OneLayer, Mode::EachLayer, Mode::Zero, Mode::One, Mode::Two, Mode::TwoInferred];

// The mode of an accepted unit, by its record.
pub fn mode_of(record: &[u32]) -> Mode {
    match record {
        [1, ..] => Mode::OneLayer,
        [_, _, _, _, _, 1, ..] => Mode::EachLayer,
        [_, _, _, _, 1, ..] => Mode::TwoInferred,
        [_, _, _, _, _, _, 0, ..] => Mode::Zero,
        [_, _, _, _, _, _, 1, ..] => Mode::One,
        _ => Mode::Two,
    }
}

// A maker of structures; small ones have few layers, rows, schedules and bits.
pub struct Maker {
    pub random: Random,
    pub small: bool,
}

impl Maker {
    pub fn one_in(&mut self, count: usize) -> bool {
        self.random.below(count) == 0
    }

    fn flag(&mut self) -> u8 {
        self.random.below(2) as u8
    }

    fn field(&mut self, width: u32) -> u32 {
        match self.random.below(6) {
            0 => 0,
            1 => ((1u64 << width) - 1) as u32,
            2 => 1,
            _ => self.random.of_width(width),
        }
    }

    fn byte(&mut self, width: u32) -> u8 {
        self.field(width) as u8
    }

    // A value of a code, mostly small; of each length now and then.
    pub fn code(&mut self) -> u32 {
        let width = match self.random.below(if self.small { 24 } else { 8 }) {
            0 => self.random.below(33) as u32,
            1 | 2 => self.random.below(9) as u32,
            _ => self.random.below(3) as u32,
        };
        self.random.of_width(width).min(u32::MAX - 1)
    }

    // A value of a code that has a limit, which is hit now and then.
    fn code_up_to(&mut self, limit: u32) -> u32 {
        match self.random.below(6) {
            0 => limit,
            1..=3 => self.random.below(3.min(limit as usize + 1)) as u32,
            _ => self.random.below(limit as usize + 1) as u32,
        }
    }

    // A count from 1: one, some, or as many as can be.
    fn count(&mut self, most: usize) -> usize {
        match self.random.below(3) {
            0 => 1,
            1 if most > 2 => 2 + self.random.below(most - 2),
            _ => most,
        }
    }

    pub fn structure(&mut self, mode: Mode) -> VvcVps {
        let layers = match mode {
            Mode::OneLayer => 1,
            _ if self.small => 2 + self.random.below(4),
            _ if self.one_in(4) => 2 + self.random.below(63),
            _ => 2 + self.random.below(6),
        };
        let mut v = self.begun(mode, layers);
        self.layers(&mut v, layers);
        if matches!(mode, Mode::Two | Mode::TwoInferred) {
            self.rows(&mut v);
        }
        let (total, multi) = sets(&v);
        self.ptls(&mut v, total);
        if v.vps_each_layer_is_an_ols_flag == 0 {
            self.dpb(&mut v, multi);
            if !self.one_in(3) {
                v.timing_hrd = Some(self.timing(&v, multi));
            }
        }
        self.extension(&mut v);
        v
    }

    // With so many layers, and in mode 2 so many rows; without timing, so that the tables stay short. Layers are on few of
    // those below, and rows have few output layers, so most sets have layers that are reached in two steps or more.
    pub fn wide(&mut self, mode: Mode, layers: usize, rows: usize) -> VvcVps {
        let mut v = self.begun(mode, layers);
        self.layers(&mut v, layers);
        let inferred = v.vps_max_sublayers_minus1 + 1;
        v.layers.iter_mut().for_each(|l| self.few_references(l, inferred));
        if matches!(mode, Mode::Two | Mode::TwoInferred) {
            v.vps_ols_output_layer_flags = (0..rows).map(|_| self.few_outputs(layers)).collect();
            // a VPS with buffers has a set of several layers
            if sets(&v).1 == 0 {
                v.vps_ols_output_layer_flags[rows - 1] = vec![1; layers];
            }
        }
        let (total, multi) = sets(&v);
        self.ptls(&mut v, total);
        if v.vps_each_layer_is_an_ols_flag == 0 {
            self.dpb(&mut v, multi);
        }
        self.extension(&mut v);
        v
    }

    // With timing whose figures are at their ends: the greatest rates, sizes and intervals, or intervals of 1 microsecond or
    // just below.
    pub fn with_extreme_figures(&mut self, mode: Mode) -> VvcVps {
        let mut v = self.structure(mode);
        let mut timing = self.timing(&v, sets(&v).1);
        let g = &mut timing.general;
        let elemental = if self.one_in(2) { 2047 } else { self.random.below(2048) as u32 };
        (g.num_units_in_tick, g.time_scale) = match self.random.below(3) {
            0 => (u32::MAX, 1),
            above => (1, 1_000_000 * (elemental + 1) + above as u32 - 1),
        };
        if g.any_hrd_present() {
            (g.bit_rate_scale, g.cpb_size_scale) = (15, 15);
        }
        for s in timing.entries.iter_mut().flat_map(|e| &mut e.ols.sublayers) {
            self.extreme_sublayer(s, elemental);
        }
        v.timing_hrd = Some(timing);
        v
    }

    fn extreme_sublayer(&mut self, s: &mut VvcOlsTimingHrdSublayer, elemental: u32) {
        if s.fixed_pic_rate_within_cvs_flag == 1 {
            s.elemental_duration_in_tc_minus1 = elemental;
        }
        for schedule in s.nal_hrd.iter_mut().chain(&mut s.vcl_hrd).flat_map(|list| &mut list.schedules) {
            if self.one_in(2) {
                schedule.bit_rate_value_minus1 = u32::MAX - 1;
            }
            if self.one_in(2) {
                schedule.cpb_size_value_minus1 = u32::MAX - 1;
            }
        }
    }

    // The highest of the layers that are referred to stays, and now and then another.
    fn few_references(&mut self, l: &mut VvcVpsLayer, inferred: u8) {
        let highest = l.vps_direct_ref_layer_flag.iter().rposition(|&flag| flag == 1);
        for i in 0..highest.unwrap_or(0) {
            if !self.one_in(8) {
                l.vps_direct_ref_layer_flag[i] = 0;
                l.vps_max_tid_il_ref_pics_plus1[i] = inferred;
            }
        }
    }

    fn few_outputs(&mut self, layers: usize) -> Vec<u8> {
        let mut row = vec![0; layers];
        for _ in 0..1 + self.random.below(3) {
            row[self.random.below(layers)] = 1;
        }
        row
    }

    fn begun(&mut self, mode: Mode, layers: usize) -> VvcVps {
        let sublayers = if self.one_in(3) { 0 } else { self.random.below(7) as u8 };
        VvcVps {
            // 0 is no id
            vps_video_parameter_set_id: self.byte(4).max(1),
            vps_max_sublayers_minus1: sublayers,
            vps_default_ptl_dpb_hrd_max_tid_flag: if layers > 1 && sublayers > 0 { self.flag() } else { 1 },
            vps_all_independent_layers_flag: u8::from(!matches!(mode, Mode::Zero | Mode::One | Mode::Two)),
            vps_each_layer_is_an_ols_flag: u8::from(matches!(mode, Mode::OneLayer | Mode::EachLayer)),
            vps_ols_mode_idc: match mode {
                Mode::Zero => 0,
                Mode::One => 1,
                _ => 2,
            },
            ..Default::default()
        }
    }

    fn layers(&mut self, v: &mut VvcVps, count: usize) {
        // rising ids, with gaps where there is room
        let mut spare = 64 - count;
        let mut next = 0;
        for i in 0..count {
            let gap = if self.one_in(2) { self.random.below(1 + spare.min(9)) } else { 0 };
            spare -= gap;
            next += gap;
            let mut l = VvcVpsLayer { vps_layer_id: next as u8, vps_independent_layer_flag: 1, ..Default::default() };
            next += 1;
            if i > 0 && v.vps_all_independent_layers_flag == 0 && !self.one_in(4) {
                self.references(&mut l, i, v.vps_max_sublayers_minus1 + 1);
            }
            v.layers.push(l);
        }
    }

    fn references(&mut self, l: &mut VvcVpsLayer, i: usize, inferred: u8) {
        l.vps_independent_layer_flag = 0;
        l.vps_max_tid_ref_present_flag = self.flag();
        let mut direct: Vec<u8> = (0..i).map(|_| u8::from(self.one_in(3))).collect();
        direct[self.random.below(i)] = 1;
        for &flag in &direct {
            let coded = flag == 1 && l.vps_max_tid_ref_present_flag == 1;
            l.vps_max_tid_il_ref_pics_plus1.push(if coded { self.byte(3) } else { inferred });
        }
        l.vps_direct_ref_layer_flag = direct;
    }

    fn rows(&mut self, v: &mut VvcVps) {
        let n = v.layers.len();
        let count = match self.random.below(if self.small { 8 } else { 16 }) {
            0 if !self.small => 1 + self.random.below(256),
            _ => 1 + self.random.below(4),
        };
        for _ in 0..count {
            let mut row: Vec<u8> = (0..n).map(|_| u8::from(self.one_in(3))).collect();
            row[self.random.below(n)] = 1;
            v.vps_ols_output_layer_flags.push(row);
        }
        // a VPS with buffers has a set of several layers
        if sets(v).1 == 0 {
            v.vps_ols_output_layer_flags[self.random.below(count)] = vec![1; n];
        }
    }

    fn ptls(&mut self, v: &mut VvcVps, total: usize) {
        let count = self.count(total.min(if self.small { 3 } else { 256 }));
        for i in 0..count {
            let present = i == 0 || self.one_in(2);
            let max_tid = self.max_tid(v);
            let ptl = self.profile_tier_level(present, max_tid);
            v.ptls.push(VvcVpsPtl { vps_pt_present_flag: u8::from(present), vps_ptl_max_tid: max_tid, ptl });
        }
        v.vps_ols_ptl_idx = self.indices(count, total);
    }

    // A max tid: coded unless all have the default.
    fn max_tid(&mut self, v: &VvcVps) -> u8 {
        let most = v.vps_max_sublayers_minus1;
        if v.vps_default_ptl_dpb_hrd_max_tid_flag == 0 { self.random.below(usize::from(most) + 1) as u8 } else { most }
    }

    fn indices(&mut self, size: usize, count: usize) -> Vec<u32> {
        (0..count).map(|i| self.index(size, count, i)).collect()
    }

    fn index(&mut self, size: usize, count: usize, i: usize) -> u32 {
        match size {
            1 => 0,
            _ if size == count => i as u32,
            _ => self.random.below(size) as u32,
        }
    }

    fn profile_tier_level(&mut self, present: bool, max_tid: u8) -> VvcProfileTierLevel {
        let constraints = present && self.one_in(if self.small { 6 } else { 2 });
        let flags: Vec<u8> = (0..max_tid).map(|_| self.flag()).collect();
        let flagged = flags.iter().filter(|&&flag| flag == 1).count();
        let sub_profiles = match self.random.below(if self.small { 12 } else { 4 }) {
            0 if present => 1 + self.random.below(2),
            1 if present && !self.small && self.one_in(8) => 255,
            _ => 0,
        };
        VvcProfileTierLevel {
            general_profile_idc: present.then(|| self.byte(7)),
            general_tier_flag: present.then(|| self.flag()),
            general_level_idc: self.byte(8),
            ptl_frame_only_constraint_flag: self.flag(),
            ptl_multilayer_enabled_flag: self.flag(),
            sublayer_level_idc: (0..flagged).map(|_| self.byte(8)).collect(),
            ptl_sublayer_level_present_flag: flags,
            general_sub_profile_idc: (0..sub_profiles).map(|_| self.field(32)).collect(),
            gci_present_flag: constraints,
            gci_bits: if constraints { self.constraints() } else { Vec::new() },
        }
    }

    // 69 bits, the number of additional bits, and those.
    fn constraints(&mut self) -> Vec<bool> {
        let additional = match self.random.below(8) {
            0 | 1 => 0,
            2..=4 => 1 + self.random.below(5),
            5 | 6 => 6 + self.random.below(3),
            _ if self.small => 20,
            _ => self.random.below(256),
        };
        let mut bits: Vec<bool> = (0..69).map(|_| self.one_in(2)).collect();
        bits.extend((0..8).rev().map(|k| additional >> k & 1 == 1));
        bits.extend((0..additional).map(|_| self.one_in(2)));
        bits
    }

    fn dpb(&mut self, v: &mut VvcVps, multi: usize) {
        let flag = if v.vps_max_sublayers_minus1 > 0 { self.flag() } else { 0 };
        v.vps_sublayer_dpb_params_present_flag = flag;
        let slots = self.count(if self.small { multi.min(3) } else { multi });
        for _ in 0..slots {
            let max_tid = self.max_tid(v);
            let entries = (0..walked(flag, max_tid)).map(|_| self.triple()).collect();
            v.dpb_params.push(VvcVpsDpb { vps_dpb_max_tid: max_tid, dpb: VvcDpbParameters { entries } });
        }
        for i in 0..multi {
            let d = VvcVpsOlsDpb {
                vps_ols_dpb_pic_width: self.code(),
                vps_ols_dpb_pic_height: self.code(),
                vps_ols_dpb_chroma_format: self.byte(2),
                vps_ols_dpb_bitdepth_minus8: self.code_up_to(8),
                vps_ols_dpb_params_idx: self.index(slots, multi, i),
            };
            v.ols_dpbs.push(d);
        }
    }

    fn triple(&mut self) -> VvcDpbEntry {
        let buffering = self.code_up_to(15);
        VvcDpbEntry {
            dpb_max_dec_pic_buffering_minus1: buffering,
            dpb_max_num_reorder_pics: self.code_up_to(buffering),
            dpb_max_latency_increase_plus1: self.code(),
        }
    }

    fn timing(&mut self, v: &VvcVps, multi: usize) -> VvcVpsTimingHrd {
        let mut g = VvcGeneralTimingHrd {
            num_units_in_tick: self.field(32).max(1),
            time_scale: self.field(32).max(1),
            general_nal_hrd_params_present_flag: self.flag(),
            general_vcl_hrd_params_present_flag: self.flag(),
            ..Default::default()
        };
        if g.any_hrd_present() {
            g.general_same_pic_timing_in_all_ols_flag = self.flag();
            g.bit_rate_scale = self.byte(4);
            g.cpb_size_scale = self.byte(4);
            if self.flag() == 1 {
                g.general_du_hrd_params_present_flag = 1;
                g.tick_divisor_minus2 = self.byte(8);
                g.cpb_size_du_scale = self.byte(4);
            }
            g.hrd_cpb_cnt_minus1 = match self.random.below(if self.small { 12 } else { 8 }) {
                0 if !self.small => 31,
                1..=4 => self.random.below(3) as u32,
                _ => 0,
            };
        }
        let flag = if v.vps_max_sublayers_minus1 > 0 { self.flag() } else { 0 };
        let count = self.count(if self.small { multi.min(3) } else { multi });
        let mut entries = Vec::new();
        for _ in 0..count {
            let max_tid = self.max_tid(v);
            let sublayers = (0..walked(flag, max_tid)).map(|_| self.timing_sublayer(&g)).collect();
            entries.push(VvcVpsOlsHrd { vps_hrd_max_tid: max_tid, ols: VvcOlsTimingHrd { sublayers } });
        }
        VvcVpsTimingHrd {
            general: g,
            vps_sublayer_cpb_params_present_flag: flag,
            entries,
            vps_ols_timing_hrd_idx: self.indices(count, multi),
        }
    }

    fn timing_sublayer(&mut self, g: &VvcGeneralTimingHrd) -> VvcOlsTimingHrdSublayer {
        let rate = self.flag();
        let within = if rate == 1 { 1 } else { self.flag() };
        let low_delay = within == 0 && g.any_hrd_present() && g.hrd_cpb_cnt_minus1 == 0;
        VvcOlsTimingHrdSublayer {
            fixed_pic_rate_general_flag: rate,
            fixed_pic_rate_within_cvs_flag: within,
            elemental_duration_in_tc_minus1: if within == 1 { self.code_up_to(2047) } else { 0 },
            low_delay_hrd_flag: if low_delay { self.flag() } else { 0 },
            nal_hrd: (g.general_nal_hrd_params_present_flag == 1).then(|| self.schedules(g)),
            vcl_hrd: (g.general_vcl_hrd_params_present_flag == 1).then(|| self.schedules(g)),
        }
    }

    fn schedules(&mut self, g: &VvcGeneralTimingHrd) -> VvcSublayerHrd {
        let du = g.general_du_hrd_params_present_flag == 1;
        let schedule = |m: &mut Self| VvcCpbSchedule {
            bit_rate_value_minus1: m.code(),
            cpb_size_value_minus1: m.code(),
            du_values_minus1: du.then(|| (m.code(), m.code())),
            cbr_flag: m.flag(),
        };
        VvcSublayerHrd { schedules: (0..=g.hrd_cpb_cnt_minus1).map(|_| schedule(self)).collect() }
    }

    fn extension(&mut self, v: &mut VvcVps) {
        if self.one_in(3) {
            v.vps_extension_flag = 1;
            if !self.one_in(3) {
                let count = 1 + self.random.below(if self.small { 8 } else { 40 });
                v.vps_extension_data = (0..count).map(|_| self.flag()).collect();
            }
        }
    }
}

fn walked(flag: u8, max_tid: u8) -> usize {
    if flag == 1 { usize::from(max_tid) + 1 } else { 1 }
}

// How many sets there are, and how many of them have several layers.
pub fn sets(v: &VvcVps) -> (usize, usize) {
    let n = v.layers.len();
    if v.vps_each_layer_is_an_ols_flag == 1 {
        return (n, 0);
    }
    if v.vps_ols_mode_idc < 2 {
        return (n, n - 1);
    }
    let several = |row: &&Vec<u8>| {
        let mut included: Vec<bool> = row.iter().map(|&flag| flag == 1).collect();
        // references go down, so one pass from the top reaches all
        for i in (0..n).rev() {
            for (j, &direct) in v.layers[i].vps_direct_ref_layer_flag.iter().enumerate() {
                included[j] |= included[i] && direct == 1;
            }
        }
        included.iter().filter(|&&layer| layer).count() > 1
    };
    (v.vps_ols_output_layer_flags.len() + 1, v.vps_ols_output_layer_flags.iter().filter(several).count())
}

// What an accepted VPS shows, by name: its mode and every optional part that it has.
pub fn shapes(v: &VvcVps, record: &[u32]) -> Vec<&'static str> {
    let mut shapes = vec![mode_of(record).name()];
    let mut add = |shown: bool, name: &'static str| {
        if shown {
            shapes.push(name);
        }
    };
    let coded = |size: usize, count: usize| size > 1 && size != count;
    let each = |size: usize, count: usize| size > 1 && size == count;
    let additional = |ptl: &VvcProfileTierLevel| ptl.gci_bits.len().checked_sub(77);
    let any_ptl = |shown: &dyn Fn(&VvcVpsPtl) -> bool| v.ptls.iter().any(shown);
    add(v.vps_default_ptl_dpb_hrd_max_tid_flag == 0, "max tids coded");
    add(v.layers.iter().any(|l| l.vps_max_tid_ref_present_flag == 1), "max tids of references coded");
    add(v.layers.iter().any(|l| l.vps_independent_layer_flag == 0), "dependent layers");
    add(v.layers.len() > 5, "over five layers");
    add(any_ptl(&|p| p.vps_pt_present_flag == 0), "PTL without profile and tier");
    add(any_ptl(&|p| p.ptl.sublayer_level_idc.len() > 1), "PTL with sublayer levels");
    add(any_ptl(&|p| !p.ptl.general_sub_profile_idc.is_empty()), "PTL with sub-profiles");
    add(any_ptl(&|p| additional(&p.ptl) == Some(0)), "constraints of 77 bits");
    add(any_ptl(&|p| additional(&p.ptl).is_some_and(|a| (1..=5).contains(&a))), "constraints of 78 to 82 bits");
    add(any_ptl(&|p| additional(&p.ptl).is_some_and(|a| a >= 6)), "constraints of 83 bits and more");
    add(coded(v.ptls.len(), v.vps_ols_ptl_idx.len()), "PTL indices coded");
    add(each(v.ptls.len(), v.vps_ols_ptl_idx.len()), "a PTL for each set");
    add(v.vps_each_layer_is_an_ols_flag == 0 && v.timing_hrd.is_none(), "buffers without timing");
    add(v.vps_sublayer_dpb_params_present_flag == 1, "DPB by sublayer");
    add(coded(v.dpb_params.len(), v.ols_dpbs.len()), "DPB indices coded");
    add(each(v.dpb_params.len(), v.ols_dpbs.len()), "a DPB slot for each set");
    if let Some(t) = &v.timing_hrd {
        let g = &t.general;
        let hrd = (g.general_nal_hrd_params_present_flag, g.general_vcl_hrd_params_present_flag);
        let mut sublayers = t.entries.iter().flat_map(|e| &e.ols.sublayers);
        add(hrd == (0, 0), "timing without HRD");
        add(hrd == (1, 0), "timing with NAL");
        add(hrd == (0, 1), "timing with VCL");
        add(hrd == (1, 1), "timing with NAL and VCL");
        add(g.general_du_hrd_params_present_flag == 1, "timing with DU");
        add(g.hrd_cpb_cnt_minus1 > 0, "timing with several schedules");
        add(sublayers.any(|s| s.low_delay_hrd_flag == 1), "timing with low delay");
        add(t.vps_sublayer_cpb_params_present_flag == 1, "timing by sublayer");
        add(coded(t.entries.len(), t.vps_ols_timing_hrd_idx.len()), "timing indices coded");
        add(each(t.entries.len(), t.vps_ols_timing_hrd_idx.len()), "a timing entry for each set");
    }
    add(v.vps_extension_flag == 1 && v.vps_extension_data.is_empty(), "extension without bits");
    add(!v.vps_extension_data.is_empty(), "extension with bits");
    add(ends_in_zero(v), "extension that ends in 0");
    shapes
}

// All names that `shapes` gives of units with few layers.
pub const SHAPES: [&str; 34] = [
    "one layer",
    "each layer a set",
    "mode 0",
    "mode 1",
    "mode 2",
    "mode 2 inferred",
    "max tids coded",
    "max tids of references coded",
    "dependent layers",
    "PTL without profile and tier",
    "PTL with sublayer levels",
    "PTL with sub-profiles",
    "constraints of 77 bits",
    "constraints of 78 to 82 bits",
    "constraints of 83 bits and more",
    "PTL indices coded",
    "a PTL for each set",
    "buffers without timing",
    "DPB by sublayer",
    "DPB indices coded",
    "a DPB slot for each set",
    "timing without HRD",
    "timing with NAL",
    "timing with VCL",
    "timing with NAL and VCL",
    "timing with DU",
    "timing with several schedules",
    "timing with low delay",
    "timing by sublayer",
    "timing indices coded",
    "a timing entry for each set",
    "extension without bits",
    "extension with bits",
    "extension that ends in 0",
];
