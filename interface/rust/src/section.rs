//! The sections of a record.
#![forbid(unsafe_code)]

/// A section of a record.
#[derive(Clone, Copy, Debug, PartialEq, Eq, Hash)]
#[repr(u32)]
pub enum Section {
    /// n, id, max_sublayers_minus1, five flags and the mode: nine numbers.
    General = 0,
    /// The layers: id, independent flag, max-tid-ref flag, and a dependent layer's pairs.
    Layers = 1,
    /// The rows of output layer sets: count, then a flag a layer and row.
    Rows = 2,
    /// Profile, tier and level: count, then the slots.
    Ptls = 3,
    /// Output layer sets: their number, then a PTL index each.
    Ols = 4,
    /// Picture buffers: count and slots, then entries of five.
    Dpb = 5,
    /// Timing: flag; if it is 1, general numbers, entries and indices.
    Timing = 6,
    /// Extension: count, then bits.
    Extension = 7,
    /// The starts of the seven sections behind General, and the record's length: eight numbers.
    Trailer = 8,
}

impl Section {
    /// All sections, in the record's order.
    pub const ALL: [Section; 9] = [
        Section::General,
        Section::Layers,
        Section::Rows,
        Section::Ptls,
        Section::Ols,
        Section::Dpb,
        Section::Timing,
        Section::Extension,
        Section::Trailer,
    ];

    /// The section's name, in lower case.
    pub fn name(self) -> &'static str {
        match self {
            Section::General => "general",
            Section::Layers => "layers",
            Section::Rows => "rows",
            Section::Ptls => "ptls",
            Section::Ols => "ols",
            Section::Dpb => "dpb",
            Section::Timing => "timing",
            Section::Extension => "extension",
            Section::Trailer => "trailer",
        }
    }
}

impl From<Section> for u32 {
    fn from(section: Section) -> u32 {
        section as u32
    }
}
