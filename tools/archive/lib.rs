// The static archive of the proved code: its calls, their comparison with the Rust, and units to time and measure it with.
pub mod buffers;
pub mod calls;
pub mod cases;
pub mod counts;
#[path = "../../interface/rust/src/declared.rs"]
mod declared;
pub mod figures;
pub mod pages;
pub mod reading;
pub mod report;
pub mod sections;
pub mod sentences;
pub mod stuffing;
pub mod writing;
