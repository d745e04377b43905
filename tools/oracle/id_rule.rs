// The second judge, for the set's id. H.266 has it greater than 0; the Rust takes 0 as any other.
// Here the rule is written out over a unit's bytes and a record's numbers, and nothing else is looked at.
use bitstream::nal::{ebsp_to_rbsp, rbsp_to_ebsp};

// The refusal of a unit with id 0: behind the checks of header and length, directly before that of the sublayers.
pub const ID_ZERO: u32 = 34;

const VPS_TYPE: u8 = 14;
pub const MOST_RBSP: usize = 65_535;

// Whether a unit is refused with 34, where the work buffer is long enough.
pub fn refuses_unit(unit: &[u8]) -> bool {
    has_id_zero(unit) && unit[1] >> 3 == VPS_TYPE && ebsp_to_rbsp(&unit[2..]).len() <= MOST_RBSP
}

// Whether the four bits behind the header, the id's, are 0, as they are where no byte is left. No stuffing stands before.
pub fn has_id_zero(unit: &[u8]) -> bool {
    unit.len() >= 2 && unit.get(2).is_none_or(|byte| byte >> 4 == 0)
}

// Whether a list has id 0, so that it isn't well formed, whatever else is in it.
pub fn refuses_list(list: &[u32]) -> bool {
    list.get(1) == Some(&0)
}

// The unit as it is but with id 0, if it has a byte for the id.
pub fn unit_with_id_zero(unit: &[u8]) -> Option<Vec<u8>> {
    let mut rbsp = ebsp_to_rbsp(unit.get(2..)?);
    *rbsp.first_mut()? &= 0x0f;
    Some([&unit[..2], &rbsp_to_ebsp(&rbsp)].concat())
}

// The list as it is but with id 0, if it has a number for the id.
pub fn list_with_id_zero(list: &[u32]) -> Option<Vec<u32>> {
    let mut other = list.to_vec();
    *other.get_mut(1)? = 0;
    Some(other)
}
