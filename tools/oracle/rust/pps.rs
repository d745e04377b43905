// The names of the picture parameter set that h266.rs takes from here, with nothing behind them.
pub const PPS_MAX_TILE_COLS: u32 = 0;
pub const PPS_MAX_TILES_PER_AU: u32 = 0;
pub const PPS_NUM_SLICES_IN_PIC_MINUS1_MAX: u32 = 0;

pub struct VvcPps;
pub struct VvcPpsChromaToolOffsets;
pub struct VvcPpsDeblocking;
pub struct VvcPpsPartition;
pub struct VvcPpsRectSlice;
pub struct VvcPpsSubpicIdMapping;

pub fn parse_pps() {}
pub fn write_pps() {}
pub fn write_pps_nal() {}
