// Records that are not well formed, and some that are, and what the Rust's writer makes of each.
use crate::record::{record_of, written};
use crate::show::{hex_of, unit_of};
use bitstream::h266::{
    VvcCpbSchedule, VvcGeneralTimingHrd, VvcOlsTimingHrd, VvcOlsTimingHrdSublayer, VvcSublayerHrd, VvcVps,
    VvcVpsOlsHrd, VvcVpsTimingHrd, parse_vps, write_vps, write_vps_nal,
};

// One layer.
const ONE_LAYER: &str = "0071100000030233000040";
// Two layers, the second on the first, mode 0.
const TWO_LAYERS: &str = "0071104000480002330000fc90";

fn one_layer() -> VvcVps {
    parse_vps(&unit_of(ONE_LAYER).expect("digits")).expect("a unit that is accepted")
}

fn two_layers() -> VvcVps {
    parse_vps(&unit_of(TWO_LAYERS).expect("digits")).expect("a unit that is accepted")
}

// Two layers with timing and so many schedules for the NAL HRD; none: no HRD.
fn timed(schedules: usize) -> VvcVps {
    let schedule = |i: usize| VvcCpbSchedule {
        bit_rate_value_minus1: i as u32,
        cpb_size_value_minus1: 0,
        du_values_minus1: None,
        cbr_flag: 0,
    };
    let sublayer = VvcOlsTimingHrdSublayer {
        nal_hrd: (schedules > 0).then(|| VvcSublayerHrd { schedules: (0..schedules).map(schedule).collect() }),
        ..Default::default()
    };
    let mut vps = two_layers();
    vps.timing_hrd = Some(VvcVpsTimingHrd {
        general: VvcGeneralTimingHrd {
            num_units_in_tick: 1,
            time_scale: 1,
            general_nal_hrd_params_present_flag: u8::from(schedules > 0),
            hrd_cpb_cnt_minus1: schedules.saturating_sub(1) as u32,
            ..Default::default()
        },
        entries: vec![VvcVpsOlsHrd { vps_hrd_max_tid: 0, ols: VvcOlsTimingHrd { sublayers: vec![sublayer] } }],
        vps_ols_timing_hrd_idx: vec![0],
        ..Default::default()
    });
    vps
}

fn general(vps: &mut VvcVps) -> &mut VvcGeneralTimingHrd {
    &mut vps.timing_hrd.as_mut().expect("timing").general
}

fn sublayer(vps: &mut VvcVps) -> &mut VvcOlsTimingHrdSublayer {
    &mut vps.timing_hrd.as_mut().expect("timing").entries[0].ols.sublayers[0]
}

// The timing with decoding units: their flag, and their two numbers in each schedule.
fn with_units(vps: &mut VvcVps) {
    general(vps).general_du_hrd_params_present_flag = 1;
    for schedule in &mut sublayer(vps).nal_hrd.as_mut().expect("an HRD").schedules {
        schedule.du_values_minus1 = Some((0, 0));
    }
}

// As many extension bits as make the RBSP so many bytes long.
fn with_length(vps: &mut VvcVps, bytes: usize) {
    vps.vps_extension_flag = 1;
    vps.vps_extension_data = vec![1];
    let short = write_vps(vps).expect("a record that is written").len();
    vps.vps_extension_data = vec![1; 1 + 8 * (bytes - short)];
}

fn with_bits(vps: &mut VvcVps, flag: u8, bits: &[u8]) {
    vps.vps_extension_flag = flag;
    vps.vps_extension_data = bits.to_vec();
}

type Change = fn(&mut VvcVps);

pub fn answers() -> String {
    let changes: Vec<(&str, VvcVps, Change)> = vec![
        ("one layer: vps_video_parameter_set_id 0", one_layer(), |v| v.vps_video_parameter_set_id = 0),
        ("one layer: vps_ols_mode_idc 0", one_layer(), |v| v.vps_ols_mode_idc = 0),
        ("one layer: vps_sublayer_dpb_params_present_flag 1", one_layer(), |v| {
            v.vps_sublayer_dpb_params_present_flag = 1
        }),
        ("one layer: vps_max_tid_ref_present_flag 1 of the independent layer", one_layer(), |v| {
            v.layers[0].vps_max_tid_ref_present_flag = 1
        }),
        ("two layers: vps_sublayer_dpb_params_present_flag 1 with one sublayer", two_layers(), |v| {
            v.vps_sublayer_dpb_params_present_flag = 1
        }),
        ("two layers: dependent layer without direct reference", two_layers(), |v| {
            v.layers[1].vps_direct_ref_layer_flag[0] = 0
        }),
        ("two layers: dpb_max_dec_pic_buffering_minus1 16", two_layers(), |v| {
            v.dpb_params[0].dpb.entries[0].dpb_max_dec_pic_buffering_minus1 = 16
        }),
        ("two layers: dpb_max_num_reorder_pics 1 over buffering 0", two_layers(), |v| {
            v.dpb_params[0].dpb.entries[0].dpb_max_num_reorder_pics = 1
        }),
        ("two layers: vps_ols_dpb_chroma_format 4", two_layers(), |v| v.ols_dpbs[0].vps_ols_dpb_chroma_format = 4),
        ("HRD: bit_rate_scale 16", timed(1), |v| general(v).bit_rate_scale = 16),
        ("HRD: cpb_size_scale 16", timed(1), |v| general(v).cpb_size_scale = 16),
        ("HRD with DU: cpb_size_du_scale 16", timed(1), |v| {
            with_units(v);
            general(v).cpb_size_du_scale = 16
        }),
        ("no HRD: general_same_pic_timing_in_all_ols_flag 1", timed(0), |v| {
            general(v).general_same_pic_timing_in_all_ols_flag = 1
        }),
        ("no HRD: general_du_hrd_params_present_flag 1", timed(0), |v| {
            general(v).general_du_hrd_params_present_flag = 1
        }),
        ("no HRD: tick_divisor_minus2 1", timed(0), |v| general(v).tick_divisor_minus2 = 1),
        ("no HRD: bit_rate_scale 1", timed(0), |v| general(v).bit_rate_scale = 1),
        ("no HRD: cpb_size_scale 1", timed(0), |v| general(v).cpb_size_scale = 1),
        ("no HRD: cpb_size_du_scale 1", timed(0), |v| general(v).cpb_size_du_scale = 1),
        ("no HRD: hrd_cpb_cnt_minus1 1", timed(0), |v| general(v).hrd_cpb_cnt_minus1 = 1),
        ("HRD without DU: tick_divisor_minus2 1", timed(1), |v| general(v).tick_divisor_minus2 = 1),
        ("HRD without DU: cpb_size_du_scale 1", timed(1), |v| general(v).cpb_size_du_scale = 1),
        ("no HRD: vps_sublayer_cpb_params_present_flag 1 with one sublayer", timed(0), |v| {
            v.timing_hrd.as_mut().expect("timing").vps_sublayer_cpb_params_present_flag = 1
        }),
        ("no HRD: fixed_pic_rate_within_cvs_flag 0 under fixed_pic_rate_general_flag 1", timed(0), |v| {
            sublayer(v).fixed_pic_rate_general_flag = 1
        }),
        ("no HRD: elemental_duration_in_tc_minus1 1 without fixed rate", timed(0), |v| {
            sublayer(v).elemental_duration_in_tc_minus1 = 1
        }),
        ("no HRD: low_delay_hrd_flag 1", timed(0), |v| sublayer(v).low_delay_hrd_flag = 1),
        ("HRD: low_delay_hrd_flag 1 with fixed rate", timed(1), |v| {
            sublayer(v).fixed_pic_rate_within_cvs_flag = 1;
            sublayer(v).low_delay_hrd_flag = 1
        }),
        ("HRD with two schedules: low_delay_hrd_flag 1", timed(2), |v| sublayer(v).low_delay_hrd_flag = 1),
        ("one layer: 78 gci bits with gci_num_additional_bits 0", one_layer(), |v| {
            v.ptls[0].ptl.gci_present_flag = true;
            v.ptls[0].ptl.gci_bits = vec![false; 78]
        }),
        ("one layer: 85 gci bits with gci_num_additional_bits 0", one_layer(), |v| {
            v.ptls[0].ptl.gci_present_flag = true;
            v.ptls[0].ptl.gci_bits = vec![false; 85]
        }),
        ("one layer: general_tier_flag 2", one_layer(), |v| v.ptls[0].ptl.general_tier_flag = Some(2)),
        ("one layer: vps_extension_flag 2", one_layer(), |v| v.vps_extension_flag = 2),
        ("two sublayers: ptl_sublayer_level_present_flag 2", one_layer(), |v| {
            v.vps_max_sublayers_minus1 = 1;
            v.ptls[0].vps_ptl_max_tid = 1;
            v.ptls[0].ptl.ptl_sublayer_level_present_flag = vec![2];
            v.ptls[0].ptl.sublayer_level_idc = vec![51]
        }),
        ("one layer: RBSP of 65,535 bytes (well formed)", one_layer(), |v| with_length(v, 65_535)),
        ("one layer: RBSP of 65,536 bytes", one_layer(), |v| with_length(v, 65_536)),
        ("one layer: extension bit 0 (well formed)", one_layer(), |v| with_bits(v, 1, &[0])),
        ("one layer: extension bits 1 0 (well formed)", one_layer(), |v| with_bits(v, 1, &[1, 0])),
        ("one layer: extension bit 0 under vps_extension_flag 0", one_layer(), |v| with_bits(v, 0, &[0])),
    ];
    changes.into_iter().map(|(words, vps, change)| answer(words, vps, change)).collect()
}

// A line for a changed record: what is written, and what reading that gives.
fn answer(words: &str, mut vps: VvcVps, change: Change) -> String {
    let same = write_vps_nal(&vps).expect("the record before its change is written");
    assert_eq!(parse_vps(&same).as_ref(), Ok(&vps), "the record before its change is read back");
    change(&mut vps);
    let well_formed = written(&record_of(&vps)).is_some();
    assert_eq!(well_formed, words.ends_with("(well formed)"), "the words say whether it is well formed: {words}");
    let unit = match write_vps_nal(&vps) {
        Err(error) => return format!("{words}: refused: {error:?}\n"),
        Ok(unit) => unit,
    };
    let read = match parse_vps(&unit) {
        Err(error) => format!("refused when read: {error:?}"),
        Ok(read) if read == vps => "read back as it was".into(),
        Ok(_) if unit == same => "the unit of the record before its change".into(),
        Ok(_) => "read back as another record".into(),
    };
    let shown = if unit.len() <= 64 { hex_of(&unit) } else { format!("{} bytes", unit.len()) };
    format!("{words}: {shown}: {read}\n")
}
