//! The refusals.
#![forbid(unsafe_code)]

use crate::calls::sentence;
use crate::{archive, MOST_SENTENCE_BYTES};
use std::error::Error;
use std::{fmt, str};

/// Why a unit was not read, a record not written, a layer page not printed, a figure not told, stuffing not added or removed, or a
/// sentence not stored. Its text is its sentence, three words for place, field and fault, and nothing else. Below are place and
/// condition of each; T is the number of output layer sets, and M that of those with more than one layer.
///
/// ```
/// use teglyovash::Refusal;
///
/// assert_eq!(Refusal::StopBitMissing.number(), 27);
/// assert_eq!(Refusal::StopBitMissing.to_string(), "end stop-bit missing");
/// assert_eq!(Refusal::RecordTooShort { needed: 38 }.to_string(), "record buffer too-short");
/// ```
#[derive(Clone, Copy, Debug, PartialEq, Eq, Hash)]
pub enum Refusal {
    /// 1, header: under 2 bytes.
    UnitTooShort,
    /// 2, header: type (second byte, bits 3 to 7, bit 0 the lowest) not 14.
    NotAVps,
    /// 3, lengths: RBSP over 65,535 bytes.
    RbspTooLong,
    /// 4, lengths: work buffer shorter than RBSP.
    WorkTooShort,
    /// 5, layers: max_sublayers_minus1 is 7.
    SublayersReserved,
    /// 6, layers: ids not strictly rising.
    LayerIdsNotRising,
    /// 7, layers: dependent layer without direct reference.
    NoDirectReference,
    /// 8, sets: mode 3.
    ModeReserved,
    /// 9, sets: row without output layer.
    NoOutputLayer,
    /// 10, sets: more PTLs than T.
    PtlsOverSets,
    /// 11, PTL: max tid over max_sublayers_minus1.
    PtlMaxTid,
    /// 12, PTL: alignment bit 1 before the first PTL.
    PtlAlignment,
    /// 13, PTL: index not below PTL count.
    PtlIndex,
    /// 14, each ue: 32 zeros inside the RBSP.
    CodeTooLong,
    /// 15, DPB: slots over M.
    DpbSlots,
    /// 16, DPB: max tid over max_sublayers_minus1.
    DpbMaxTid,
    /// 17, DPB: buffering over 15.
    DpbBuffering,
    /// 18, DPB: reorder over buffering.
    DpbReorder,
    /// 19, DPB: depth over 8.
    DpbDepth,
    /// 20, DPB: index not below slots.
    DpbIndex,
    /// 21, timing: units or scale 0, after both HRD flags.
    TimingZero,
    /// 22, timing: schedule count field over 31.
    ScheduleCount,
    /// 23, timing: entries over M.
    TimingEntries,
    /// 24, timing: max tid over max_sublayers_minus1.
    TimingMaxTid,
    /// 25, timing: elemental duration over 2,047.
    ElementalDuration,
    /// 26, timing: index not below entries.
    TimingIndex,
    /// 27, end: no bit left for the stop bit.
    StopBitMissing,
    /// 28, end: stop bit 0.
    StopBitZero,
    /// 29, end: a 1 between stop bit and boundary.
    AlignmentBitOne,
    /// 30, record: record buffer too short.
    RecordTooShort {
        /// The length that the record needs, in numbers.
        needed: usize,
    },
    /// 31, writer, layer page, rates, buffer sizes, picture intervals: not well formed.
    NotWellFormed,
    /// 32, writer, layer page, adding and removing stuffing, sentences: output too short.
    OutputTooShort,
    /// 33, rates, buffer sizes, picture intervals: no timing section, or no such entry, sublayer or schedule in it.
    ItemMissing,
    /// 34, layers: vps_video_parameter_set_id 0, directly before 5.
    IdZero,
    /// 35, each ue: its last bit past the RBSP; behind 14, and before the value's own limit.
    CodePastEnd,
}

impl Refusal {
    /// The refusal's number, 1 to 35.
    pub fn number(self) -> u32 {
        match self {
            Refusal::UnitTooShort => 1,
            Refusal::NotAVps => 2,
            Refusal::RbspTooLong => 3,
            Refusal::WorkTooShort => 4,
            Refusal::SublayersReserved => 5,
            Refusal::LayerIdsNotRising => 6,
            Refusal::NoDirectReference => 7,
            Refusal::ModeReserved => 8,
            Refusal::NoOutputLayer => 9,
            Refusal::PtlsOverSets => 10,
            Refusal::PtlMaxTid => 11,
            Refusal::PtlAlignment => 12,
            Refusal::PtlIndex => 13,
            Refusal::CodeTooLong => 14,
            Refusal::DpbSlots => 15,
            Refusal::DpbMaxTid => 16,
            Refusal::DpbBuffering => 17,
            Refusal::DpbReorder => 18,
            Refusal::DpbDepth => 19,
            Refusal::DpbIndex => 20,
            Refusal::TimingZero => 21,
            Refusal::ScheduleCount => 22,
            Refusal::TimingEntries => 23,
            Refusal::TimingMaxTid => 24,
            Refusal::ElementalDuration => 25,
            Refusal::TimingIndex => 26,
            Refusal::StopBitMissing => 27,
            Refusal::StopBitZero => 28,
            Refusal::AlignmentBitOne => 29,
            Refusal::RecordTooShort { .. } => 30,
            Refusal::NotWellFormed => 31,
            Refusal::OutputTooShort => 32,
            Refusal::ItemMissing => 33,
            Refusal::IdZero => 34,
            Refusal::CodePastEnd => 35,
        }
    }

    /// The refusal of a number that a call gave; `needed` is what 30 stored.
    pub(crate) fn of(number: u32, needed: usize) -> Refusal {
        match number {
            1 => Refusal::UnitTooShort,
            2 => Refusal::NotAVps,
            3 => Refusal::RbspTooLong,
            4 => Refusal::WorkTooShort,
            5 => Refusal::SublayersReserved,
            6 => Refusal::LayerIdsNotRising,
            7 => Refusal::NoDirectReference,
            8 => Refusal::ModeReserved,
            9 => Refusal::NoOutputLayer,
            10 => Refusal::PtlsOverSets,
            11 => Refusal::PtlMaxTid,
            12 => Refusal::PtlAlignment,
            13 => Refusal::PtlIndex,
            14 => Refusal::CodeTooLong,
            15 => Refusal::DpbSlots,
            16 => Refusal::DpbMaxTid,
            17 => Refusal::DpbBuffering,
            18 => Refusal::DpbReorder,
            19 => Refusal::DpbDepth,
            20 => Refusal::DpbIndex,
            21 => Refusal::TimingZero,
            22 => Refusal::ScheduleCount,
            23 => Refusal::TimingEntries,
            24 => Refusal::TimingMaxTid,
            25 => Refusal::ElementalDuration,
            26 => Refusal::TimingIndex,
            27 => Refusal::StopBitMissing,
            28 => Refusal::StopBitZero,
            29 => Refusal::AlignmentBitOne,
            30 => Refusal::RecordTooShort { needed },
            31 => Refusal::NotWellFormed,
            32 => Refusal::OutputTooShort,
            33 => Refusal::ItemMissing,
            34 => Refusal::IdZero,
            35 => Refusal::CodePastEnd,
            _ => unreachable!("no function gives {number}"),
        }
    }

    /// The refusal whose sentence these bytes are, exactly as [`crate::sentence`] stores it, and `None` for all other bytes.
    ///
    /// The sentence of 30 does not say what length the record needs, so its `needed` is 0 here.
    ///
    /// ```
    /// use teglyovash::Refusal;
    ///
    /// assert_eq!(Refusal::from_sentence(b"layers ids not-rising"), Some(Refusal::LayerIdsNotRising));
    /// assert_eq!(Refusal::from_sentence(b"record buffer too-short"), Some(Refusal::RecordTooShort { needed: 0 }));
    /// assert_eq!(Refusal::from_sentence(b"layers ids"), None);
    /// ```
    pub fn from_sentence(sentence: &[u8]) -> Option<Refusal> {
        match archive::sentence_number(sentence) {
            0 => None,
            number => Some(Refusal::of(number, 0)),
        }
    }
}

impl fmt::Display for Refusal {
    fn fmt(&self, f: &mut fmt::Formatter<'_>) -> fmt::Result {
        let mut output = [0; MOST_SENTENCE_BYTES];
        let length = sentence(self.number(), &mut output).expect("every sentence has room");
        f.write_str(str::from_utf8(&output[..length]).expect("a sentence is ASCII"))
    }
}

impl Error for Refusal {}

#[cfg(test)]
mod tests {
    use super::Refusal;
    use std::collections::HashSet;

    /// Every refusal, in order of its number.
    fn all() -> Vec<Refusal> {
        (1..=35).map(|number| Refusal::of(number, 0)).collect()
    }

    #[test]
    fn each_number_has_its_refusal() {
        assert!(all().iter().zip(1..).all(|(refusal, number)| refusal.number() == number));
    }

    #[test]
    fn each_refusal_has_a_sentence_of_its_own() {
        for refusal in all() {
            let sentence = refusal.to_string();
            let words: Vec<&str> = sentence.split(' ').collect();
            assert_eq!(words.len(), 3, "{sentence}");
            assert!(words.iter().all(|word| !word.is_empty()), "{sentence}");
        }
        let sentences: HashSet<String> = all().iter().map(Refusal::to_string).collect();
        assert_eq!(sentences.len(), all().len());
    }

    #[test]
    fn some_sentences() {
        assert_eq!(Refusal::LayerIdsNotRising.to_string(), "layers ids not-rising");
        assert_eq!(Refusal::ScheduleCount.to_string(), "timing schedule-count over-31");
        assert_eq!(Refusal::RecordTooShort { needed: 38 }.to_string(), "record buffer too-short");
        assert_eq!(Refusal::ItemMissing.to_string(), "rates item missing");
        assert_eq!(Refusal::IdZero.to_string(), "layers set-id zero");
        assert_eq!(Refusal::CodePastEnd.to_string(), "code bits missing");
    }

    #[test]
    fn a_sentence_gives_its_refusal_back() {
        for refusal in all() {
            assert_eq!(Refusal::from_sentence(refusal.to_string().as_bytes()), Some(refusal));
        }
    }

    #[test]
    fn other_bytes_give_none() {
        assert_eq!(Refusal::from_sentence(b""), None);
        for refusal in all() {
            let sentence = refusal.to_string().into_bytes();
            for end in 0..sentence.len() {
                assert_eq!(Refusal::from_sentence(&sentence[..end]), None, "{refusal}, {end} bytes");
                // a letter in the other case, or a byte that no sentence has
                let mut changed = sentence.clone();
                changed[end] ^= 0x20;
                assert_eq!(Refusal::from_sentence(&changed), None, "{refusal}, byte {end} changed");
            }
            let longer = [&sentence[..], b" "].concat();
            assert_eq!(Refusal::from_sentence(&longer), None, "{refusal} and a blank");
        }
    }
}
