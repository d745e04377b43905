// The names of the sequence parameter set that h266.rs takes from here, with nothing behind them.
pub const SPS_LOG2_MAX_PIC_ORDER_CNT_LSB_MINUS4_MAX: u32 = 0;
pub const SPS_NUM_SUBPICS_MINUS1_MAX: u32 = 0;

pub struct VvcChromaQpTable;
pub struct VvcLadf;
pub struct VvcSps;
pub struct VvcSpsRangeExtension;
pub struct VvcSpsTimingHrd;
pub struct VvcSubpicEntry;
pub struct VvcSubpicInfo;

impl VvcSps {
    pub fn poc_lsb_width(&self) -> u32 {
        0
    }
}

pub fn parse_sps() {}
pub fn write_sps() {}
pub fn write_sps_nal() {}
