// The units of samples/, made of the two units that the papers name by changing fields of the Rust's structure.
use crate::definition_units::{D, U, timing, vps_of};
use crate::extension_rule::write_unit;
use bitstream::h266::VvcVps;
use std::path::Path;

// Writes the samples into a folder, and says how many there are.
pub fn write(folder: &str) -> std::io::Result<String> {
    let three = unit(&three_layers());
    let samples = [
        ("one_layer.vps", unit(&vps_of(U))),
        ("three_layers.vps", three.clone()),
        ("output_rows.vps", unit(&with_output_rows())),
        ("timing.vps", unit(&with_timing())),
        ("extension.vps", unit(&with_extension(vec![1, 0, 1, 1]))),
        ("extension_zero.vps", unit(&with_extension(vec![1, 0]))),
        ("id_zero.vps", unit(&VvcVps { vps_video_parameter_set_id: 0, ..vps_of(U) })),
        // the end of the unit is lost: two zeros are left of the second set's height, or all but three bits
        ("damaged.vps", three[..three.len() - 4].to_vec()),
        ("cut_code.vps", three[..three.len() - 2].to_vec()),
    ];
    for (name, bytes) in &samples {
        std::fs::write(Path::new(folder).join(name), bytes)?;
    }
    Ok(format!("samples {}\n", samples.len()))
}

fn unit(v: &VvcVps) -> Vec<u8> {
    write_unit(v).expect("the structure is written")
}

// Each layer on the one below, with one buffer slot for both sets of several layers, 1920 by 1080 in 10 bits.
fn three_layers() -> VvcVps {
    let mut v = vps_of(D);
    let mut layer = v.layers[1].clone();
    layer.vps_layer_id = 2;
    layer.vps_direct_ref_layer_flag = vec![0, 1];
    layer.vps_max_tid_il_ref_pics_plus1 = vec![1, 1];
    v.layers.push(layer);
    v.vps_ols_ptl_idx = vec![0; 3];
    v.ptls[0].ptl.ptl_multilayer_enabled_flag = 1;
    v.dpb_params[0].dpb.entries[0].dpb_max_dec_pic_buffering_minus1 = 4;
    v.dpb_params[0].dpb.entries[0].dpb_max_num_reorder_pics = 2;
    let mut set = v.ols_dpbs[0].clone();
    set.vps_ols_dpb_pic_width = 1920;
    set.vps_ols_dpb_pic_height = 1080;
    set.vps_ols_dpb_chroma_format = 1;
    set.vps_ols_dpb_bitdepth_minus8 = 2;
    v.ols_dpbs = vec![set; 2];
    v
}

// Mode 2: layer 1 on 0, layer 2 on 0, layer 3 on 2. Output layers are 3 alone, which reaches 2 and by it 0, then 1 and 2.
fn with_output_rows() -> VvcVps {
    let mut v = three_layers();
    v.vps_ols_mode_idc = 2;
    v.layers[2].vps_direct_ref_layer_flag = vec![1, 0];
    let mut layer = v.layers[2].clone();
    layer.vps_layer_id = 3;
    layer.vps_direct_ref_layer_flag = vec![0, 0, 1];
    layer.vps_max_tid_il_ref_pics_plus1 = vec![1, 1, 1];
    v.layers.push(layer);
    v.vps_ols_output_layer_flags = vec![vec![0, 0, 0, 1], vec![0, 1, 1, 0]];
    v
}

// Two layers, 60,000 / 1,001 pictures a second, with NAL schedules.
fn with_timing() -> VvcVps {
    let mut v = vps_of(D);
    v.timing_hrd = Some(timing(1, 0, 0, 2));
    v
}

fn with_extension(bits: Vec<u8>) -> VvcVps {
    let mut v = vps_of(U);
    v.vps_extension_flag = 1;
    v.vps_extension_data = bits;
    v
}
