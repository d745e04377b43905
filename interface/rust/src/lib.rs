//! H.266 video parameter sets (VPS): a unit read into a record, a record written as a unit, a record's sections and layer page, its
//! rates, buffer sizes and picture intervals as plain figures, byte stuffing, and refusals as sentences that can be read out.
//!
//! The work is done by proved code in the archive `libvps_c.a`: for all bytes, numbers and lengths each function does what is said
//! here. This crate adds types, and no checks of its own. All buffers are the caller's, and nothing is allocated.
//!
//! ```
//! use teglyovash::{parse, section, write, Section};
//!
//! let unit = [0x00, 0x71, 0x10, 0x00, 0x00, 0x03, 0x02, 0x33, 0x00, 0x00, 0x40];
//! let mut work = [0; 64];
//! let mut numbers = [0; 64];
//! let parsed = parse(&unit, &mut work, &mut numbers)?;
//! let record = &numbers[..parsed.length];
//! assert_eq!(section(record, Section::General), [1, 1, 0, 1, 1, 1, 2, 0, 0]);
//!
//! let mut output = [0; 64];
//! let written = write(record, &mut output)?;
//! assert_eq!(output[..written], unit);
//! # Ok::<(), teglyovash::Refusal>(())
//! ```
#![deny(unsafe_code)]
#![deny(missing_docs)]

mod archive;
mod calls;
#[cfg(test)]
mod cut_code_tests;
mod declared;
#[cfg(test)]
mod figure_tests;
#[cfg(test)]
mod id_tests;
mod kind;
#[cfg(test)]
mod page_tests;
mod refusal;
mod section;

pub use calls::{
    bit_rate, buffer_size, ebsp_to_rbsp, layer_page, parse, picture_interval, rbsp_to_ebsp, section, sentence, write,
    Parsed,
};
pub use kind::Kind;
pub use refusal::Refusal;
pub use section::Section;

/// The longest RBSP, in bytes: a work buffer of this length is long enough for every unit.
pub const MOST_RBSP_BYTES: usize = 65_535;

/// The longest record, in numbers: a record buffer of this length is long enough for every unit.
pub const MOST_RECORD_NUMBERS: usize = 535_855;

/// The longest unit that is written, in bytes: an output of this length is long enough for every record.
pub const MOST_UNIT_BYTES: usize = 98_304;

/// 257 sets, a line of 72 bytes each: an output of this length is long enough for every layer page.
pub const MOST_PAGE_BYTES: usize = 18_504;

/// Three words of at most 15 bytes each and two blanks: an output of this length is long enough for every sentence.
pub const MOST_SENTENCE_BYTES: usize = 47;
