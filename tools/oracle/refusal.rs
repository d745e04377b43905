// The number of each refusal of the Rust's reader, by the words of its error.
use crate::cut_rule::CODE_PAST_END;
use crate::id_rule::ID_ZERO;
use bitstream::BitstreamError;

// How each message begins. 3, 4 and 30 to 32 speak of lengths and buffers that the Rust's reader does not know, 34 of an id
// that it takes, and 35 of codes that it reads on past the end.
const NUMBERS: [(&str, u32); 27] = [
    ("H.266 VPS NAL needs at least the 2-byte header", 1),
    ("expected VPS NAL", 2),
    ("vps_max_sublayers_minus1 = 7 > 6", 5),
    ("vps_layer_id values must be strictly increasing", 6),
    ("a dependent layer needs at least one direct reference layer", 7),
    ("vps_ols_mode_idc = 3 is reserved", 8),
    ("every OLS needs at least one output layer", 9),
    ("vps_num_ptls_minus1 must be less than TotalNumOlss", 10),
    ("vps_ptl_max_tid exceeds vps_max_sublayers_minus1", 11),
    ("vps_ptl_alignment_zero_bit must be 0", 12),
    ("vps_ols_ptl_idx exceeds vps_num_ptls_minus1", 13),
    ("ue(v): 32 or more leading zero bits", 14),
    ("vps_num_dpb_params_minus1 must be < NumMultiLayerOlss", 15),
    ("vps_dpb_max_tid exceeds vps_max_sublayers_minus1", 16),
    ("dpb_max_dec_pic_buffering_minus1 = ", 17),
    ("dpb_max_num_reorder_pics = ", 18),
    ("vps_ols_dpb_bitdepth_minus8 > 8", 19),
    ("vps_ols_dpb_params_idx exceeds VpsNumDpbParams", 20),
    ("general_timing_hrd_parameters: num_units_in_tick and time_scale must be > 0", 21),
    ("hrd_cpb_cnt_minus1 = ", 22),
    ("vps_num_ols_timing_hrd_params_minus1 must be < NumMultiLayerOlss", 23),
    ("vps_hrd_max_tid exceeds vps_max_sublayers_minus1", 24),
    ("elemental_duration_in_tc_minus1 = ", 25),
    ("vps_ols_timing_hrd_idx exceeds the entry count", 26),
    ("rbsp_trailing_bits: no bits left for stop bit", 27),
    ("rbsp_trailing_bits: rbsp_stop_one_bit was 0", 28),
    ("rbsp_trailing_bits: alignment_zero_bit was 1", 29),
];

// The number, and a stop where the Rust says something that is not in the table or of another kind.
pub fn number_of(error: &BitstreamError) -> u32 {
    let (message, ended) = match error {
        BitstreamError::UnexpectedEnd(message) => (message, true),
        BitstreamError::InvalidData(message) => (message, false),
        BitstreamError::Unsupported(message) => panic!("the Rust's reader supports all: {message}"),
    };
    let found = NUMBERS.iter().find(|(words, _)| message.starts_with(words));
    let number = found.unwrap_or_else(|| panic!("a message without a number: {message}")).1;
    assert_eq!(ended, number == 1 || number == 27, "1 and 27 are `UnexpectedEnd`, the others `InvalidData`: {message}");
    number
}

// Every number that the judges give for a unit.
pub fn numbers() -> impl Iterator<Item = u32> {
    NUMBERS.iter().map(|(_, number)| *number).chain([ID_ZERO, CODE_PAST_END])
}
