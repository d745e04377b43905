// The units that are timed: from the shortest to the longest, with every table.
use bitstream::h266::{
    parse_vps, write_vps, write_vps_nal, VvcCpbSchedule, VvcDpbEntry, VvcDpbParameters, VvcGeneralTimingHrd,
    VvcOlsTimingHrd, VvcOlsTimingHrdSublayer, VvcSublayerHrd, VvcVps, VvcVpsDpb, VvcVpsLayer, VvcVpsOlsDpb,
    VvcVpsOlsHrd, VvcVpsTimingHrd,
};
use judge::draft::unit_of_rbsp;
use judge::random::Random;
use judge::show::unit_of;

pub struct Case {
    pub name: String,
    pub unit: Vec<u8>,
    pub vps: VvcVps,
}

impl Case {
    fn new(name: impl Into<String>, vps: VvcVps) -> Self {
        let unit = write_vps_nal(&vps).expect("the Rust writes the structure");
        Self { name: name.into(), unit, vps }
    }
}

// One of each size and kind.
pub fn cases() -> Vec<Case> {
    vec![
        Case::new("U, one layer", one_layer()),
        Case::new("three layers", sample(include_bytes!("../../samples/three_layers.vps"))),
        Case::new("timing, two schedules", sample(include_bytes!("../../samples/timing.vps"))),
        Case::new("64 layers, 256 rows", with_rows(256)),
        Case::new("full timing", with_timing(7)),
        Case::new("long extension", with_extension(65_535)),
    ]
}

// The same unit growing: by extension bits, and by timing entries.
pub fn growth() -> Vec<Case> {
    let extended = [16, 64, 256, 1_024, 4_096, 16_384, 65_535];
    let by_extension = extended.map(|length| Case::new(format!("extension, RBSP of {length}"), with_extension(length)));
    let by_timing =
        [1, 2, 4, 8, 13].map(|entries| Case::new(format!("timing, entries {entries}"), with_timing(entries)));
    by_extension.into_iter().chain(by_timing).collect()
}

// By their sets: one, 64 of each way that has no rows, and then 64 and 257 by rows.
pub fn by_sets() -> Vec<Case> {
    vec![
        Case::new("U, one layer", one_layer()),
        Case::new("64 layers, each a set", each_a_set()),
        Case::new("64 layers, mode 0", with_buffers(VvcVps { vps_ols_mode_idc: 0, ..layered(64, 1) }, 64, 63)),
        Case::new("64 layers, 63 rows", with_rows(63)),
        Case::new("64 layers, 256 rows", with_rows(256)),
    ]
}

// 64 layers, and for their 63 sets of several layers so many timing entries, each of the same shape.
pub fn with_entries(entries: usize) -> Case {
    Case::new(format!("64 layers, entries {entries}"), timed(64, entries, 4))
}

// 64 layers and so many timing entries, each with 32 schedules.
pub fn with_schedules(entries: usize) -> Case {
    Case::new(format!("64 layers, entries {entries} of 32 schedules"), timed(64, entries, 32))
}

// Units with so many bytes of RBSP behind the extension flag, by what these bytes are.
pub fn long_extensions(count: usize) -> [(&'static str, Vec<u8>); 4] {
    let zeros_and = |last: u8| [vec![0; count - 1], vec![last]].concat();
    let half = count / 2;
    [
        ("one one-bit at the end", with_bytes(&zeros_and(0b01))),
        ("ones in the first half", with_bytes(&[vec![0xff; half], vec![0; count - half]].concat())),
        ("two one-bits at the end", with_bytes(&zeros_and(0b11))),
        ("ones alone", with_bytes(&vec![0xff; count])),
    ]
}

fn sample(unit: &[u8]) -> VvcVps {
    parse_vps(unit).expect("the sample is accepted")
}

fn one_layer() -> VvcVps {
    sample(&unit_of("0071100000030233000040").expect("pairs of hexadecimal digits"))
}

// U with random extension bits up to a length of the RBSP.
fn with_extension(length: usize) -> VvcVps {
    let mut v = one_layer();
    let mut random = Random::new(1);
    v.vps_extension_flag = 1;
    v.vps_extension_data = vec![1];
    let bits = 8 * (length - write_vps(&v).expect("the Rust writes the structure").len());
    v.vps_extension_data = (0..bits).map(|_| random.below(2) as u8).collect();
    v.vps_extension_data.push(1);
    v
}

// U with extension flag 1 and bytes behind it. The flag is the first bit of U's last byte: the seven bits between it and the
// bytes are as the first of these begins, so that the RBSP is U's bytes and then these.
fn with_bytes(bytes: &[u8]) -> Vec<u8> {
    let mut rbsp = write_vps(&one_layer()).expect("the Rust writes the structure");
    assert_eq!(rbsp.pop(), Some(0b0100_0000), "U ends with its flag of 0 and the stop bit");
    rbsp.push(0b1000_0000 | bytes[0] >> 1);
    rbsp.extend(bytes);
    unit_of_rbsp(&rbsp)
}

// So many layers, each on some of those below, with so many sublayers.
fn layered(count: usize, sublayers: u8) -> VvcVps {
    let mut random = Random::new(2);
    let mut v = one_layer();
    v.vps_all_independent_layers_flag = 0;
    v.vps_each_layer_is_an_ols_flag = 0;
    v.vps_max_sublayers_minus1 = sublayers - 1;
    v.ptls[0].vps_ptl_max_tid = sublayers - 1;
    v.ptls[0].ptl.ptl_sublayer_level_present_flag = vec![0; usize::from(sublayers) - 1];
    for i in 1..count {
        let mut direct: Vec<u8> = (0..i).map(|_| u8::from(random.below(3) == 0)).collect();
        direct[i - 1] = 1;
        v.layers.push(VvcVpsLayer {
            vps_layer_id: i as u8,
            vps_independent_layer_flag: 0,
            vps_max_tid_ref_present_flag: 0,
            vps_direct_ref_layer_flag: direct,
            vps_max_tid_il_ref_pics_plus1: vec![sublayers; i],
        });
    }
    v
}

// One DPB slot for all sets of several layers.
fn with_buffers(mut v: VvcVps, total: usize, multi: usize) -> VvcVps {
    v.vps_ols_ptl_idx = vec![0; total];
    let entries = vec![VvcDpbEntry {
        dpb_max_dec_pic_buffering_minus1: 4,
        dpb_max_num_reorder_pics: 2,
        dpb_max_latency_increase_plus1: 0,
    }];
    v.dpb_params = vec![VvcVpsDpb { vps_dpb_max_tid: v.vps_max_sublayers_minus1, dpb: VvcDpbParameters { entries } }];
    v.ols_dpbs = (0..multi)
        .map(|_| VvcVpsOlsDpb {
            vps_ols_dpb_pic_width: 1920,
            vps_ols_dpb_pic_height: 1080,
            vps_ols_dpb_chroma_format: 1,
            vps_ols_dpb_bitdepth_minus8: 2,
            vps_ols_dpb_params_idx: 0,
        })
        .collect();
    v
}

// Layers that are all independent, each a set.
fn each_a_set() -> VvcVps {
    let mut v = one_layer();
    let first = v.layers[0].clone();
    v.layers = (0..64).map(|i| VvcVpsLayer { vps_layer_id: i, ..first.clone() }).collect();
    v.vps_ols_ptl_idx = vec![0; 64];
    v
}

// Mode 2: every row has the highest layer, which reaches others.
fn with_rows(rows: usize) -> VvcVps {
    let mut random = Random::new(3);
    let mut v = layered(64, 1);
    v.vps_ols_mode_idc = 2;
    for _ in 0..rows {
        let mut row: Vec<u8> = (0..64).map(|_| random.below(2) as u8).collect();
        row[63] = 1;
        v.vps_ols_output_layer_flags.push(row);
    }
    with_buffers(v, rows + 1, rows)
}

// Mode 0 with a timing entry for each set of several layers, and 32 schedules of both kinds.
fn with_timing(entries: usize) -> VvcVps {
    timed(entries + 1, entries, 32)
}

// Mode 0 with so many layers and timing entries: seven sublayers, each with so many schedules of both kinds with DU numbers.
fn timed(layers: usize, entries: usize, schedules: u32) -> VvcVps {
    let mut random = Random::new(4);
    let mut v = layered(layers, 7);
    v.vps_ols_mode_idc = 0;
    let mut v = with_buffers(v, layers, layers - 1);
    let general = VvcGeneralTimingHrd {
        num_units_in_tick: 1_001,
        time_scale: 60_000,
        general_nal_hrd_params_present_flag: 1,
        general_vcl_hrd_params_present_flag: 1,
        general_du_hrd_params_present_flag: 1,
        hrd_cpb_cnt_minus1: schedules - 1,
        ..Default::default()
    };
    let entry = |random: &mut Random| VvcVpsOlsHrd {
        vps_hrd_max_tid: 6,
        ols: VvcOlsTimingHrd { sublayers: (0..7).map(|_| timing_sublayer(random, schedules)).collect() },
    };
    v.timing_hrd = Some(VvcVpsTimingHrd {
        general,
        vps_sublayer_cpb_params_present_flag: 1,
        entries: (0..entries).map(|_| entry(&mut random)).collect(),
        vps_ols_timing_hrd_idx: (0..layers - 1).map(|i| (i % entries) as u32).collect(),
    });
    v
}

fn timing_sublayer(random: &mut Random, count: u32) -> VvcOlsTimingHrdSublayer {
    let mut schedules = || {
        let schedule = |random: &mut Random| VvcCpbSchedule {
            bit_rate_value_minus1: random.of_width(8),
            cpb_size_value_minus1: random.of_width(8),
            du_values_minus1: Some((random.of_width(8), random.of_width(8))),
            cbr_flag: random.below(2) as u8,
        };
        Some(VvcSublayerHrd { schedules: (0..count).map(|_| schedule(random)).collect() })
    };
    VvcOlsTimingHrdSublayer {
        fixed_pic_rate_general_flag: 1,
        fixed_pic_rate_within_cvs_flag: 1,
        elemental_duration_in_tc_minus1: 0,
        low_delay_hrd_flag: 0,
        nal_hrd: schedules(),
        vcl_hrd: schedules(),
    }
}
