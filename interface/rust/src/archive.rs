//! The functions of the archive, each with its slices put together again. Here, and where they are declared, is all unsafe code.
#![allow(unsafe_code)]

/// What a call gave, and a number that it stored, which is 0 where it stored none.
pub(crate) struct Said {
    pub(crate) number: u32,
    pub(crate) stored: u64,
}

/// What `vps_parse` gave, and the two numbers that it stored.
pub(crate) struct SaidOfUnit {
    pub(crate) number: u32,
    pub(crate) length: u64,
    pub(crate) bits_used: u64,
}

/// What `vps_picture_interval` gave, and the two numbers that it stored.
pub(crate) struct SaidOfInterval {
    pub(crate) number: u32,
    pub(crate) known: u32,
    pub(crate) microseconds: u64,
}

use crate::declared;

// Each call below hands over slices that its caller holds, with their lengths, and numbers of its own. The slices are not null,
// aligned, and, where they are lent to be changed, overlap nothing else: that is all the archive asks.

pub(crate) fn parse(unit: &[u8], work: &mut [u8], record: &mut [u32]) -> SaidOfUnit {
    let (mut length, mut bits_used) = (0, 0);
    // SAFETY: as above.
    let number = unsafe {
        declared::vps_parse(
            unit.as_ptr(),
            unit.len(),
            work.as_mut_ptr(),
            work.len(),
            record.as_mut_ptr(),
            record.len(),
            &mut length,
            &mut bits_used,
        )
    };
    SaidOfUnit { number, length, bits_used }
}

pub(crate) fn write(record: &[u32], output: &mut [u8]) -> Said {
    let mut stored = 0;
    // SAFETY: as above.
    let number =
        unsafe { declared::vps_write(record.as_ptr(), record.len(), output.as_mut_ptr(), output.len(), &mut stored) };
    Said { number, stored }
}

/// Where the part starts, and how long it is. The number that is given is always 0.
pub(crate) fn section(record: &[u32], number: u32) -> (u64, u64) {
    let (mut start, mut count) = (0, 0);
    // SAFETY: as above.
    unsafe { declared::vps_section(record.as_ptr(), record.len(), number, &mut start, &mut count) };
    (start, count)
}

pub(crate) fn layer_page(record: &[u32], output: &mut [u8]) -> Said {
    let mut stored = 0;
    // SAFETY: as above.
    let number = unsafe {
        declared::vps_layer_page(record.as_ptr(), record.len(), output.as_mut_ptr(), output.len(), &mut stored)
    };
    Said { number, stored }
}

pub(crate) fn bit_rate(record: &[u32], entry: u32, sublayer: u32, vcl: u32, schedule: u32) -> Said {
    let mut stored = 0;
    // SAFETY: as above.
    let number =
        unsafe { declared::vps_bit_rate(record.as_ptr(), record.len(), entry, sublayer, vcl, schedule, &mut stored) };
    Said { number, stored }
}

pub(crate) fn buffer_size(record: &[u32], entry: u32, sublayer: u32, vcl: u32, schedule: u32) -> Said {
    let mut stored = 0;
    // SAFETY: as above.
    let number = unsafe {
        declared::vps_buffer_size(record.as_ptr(), record.len(), entry, sublayer, vcl, schedule, &mut stored)
    };
    Said { number, stored }
}

pub(crate) fn picture_interval(record: &[u32], entry: u32, sublayer: u32) -> SaidOfInterval {
    let (mut known, mut microseconds) = (0, 0);
    // SAFETY: as above.
    let number = unsafe {
        declared::vps_picture_interval(record.as_ptr(), record.len(), entry, sublayer, &mut known, &mut microseconds)
    };
    SaidOfInterval { number, known, microseconds }
}

pub(crate) fn ebsp_to_rbsp(source: &[u8], output: &mut [u8]) -> Said {
    let mut stored = 0;
    // SAFETY: as above.
    let number = unsafe {
        declared::vps_ebsp_to_rbsp(source.as_ptr(), source.len(), output.as_mut_ptr(), output.len(), &mut stored)
    };
    Said { number, stored }
}

pub(crate) fn rbsp_to_ebsp(source: &[u8], output: &mut [u8]) -> Said {
    let mut stored = 0;
    // SAFETY: as above.
    let number = unsafe {
        declared::vps_rbsp_to_ebsp(source.as_ptr(), source.len(), output.as_mut_ptr(), output.len(), &mut stored)
    };
    Said { number, stored }
}

pub(crate) fn sentence(number: u32, output: &mut [u8]) -> Said {
    let mut stored = 0;
    // SAFETY: as above.
    let number = unsafe { declared::vps_sentence(number, output.as_mut_ptr(), output.len(), &mut stored) };
    Said { number, stored }
}

/// The number of the refusal whose sentence these bytes are, or 0.
pub(crate) fn sentence_number(sentence: &[u8]) -> u32 {
    // SAFETY: as above.
    unsafe { declared::vps_sentence_number(sentence.as_ptr(), sentence.len()) }
}

#[cfg(test)]
mod tests {
    use super::declared;
    use crate::figure_tests::{record_changed, record_with};

    /// What a figure is before a call.
    const BEFORE: u64 = 0x5a5a_5a5a_5a5a_5a5a;

    /// What says whether there is an interval, before a call.
    const KNOWN_BEFORE: u32 = 0x5a5a_5a5a;

    /// What bit rate and buffer size of a schedule are asked with.
    type OfSchedule = unsafe extern "C" fn(*const u32, usize, u32, u32, u32, u32, *mut u64) -> u32;

    fn of_schedule(call: OfSchedule, record: &[u32], [entry, sublayer, vcl, schedule]: [u32; 4]) -> (u32, u64) {
        let mut figure = BEFORE;
        // SAFETY: as above.
        let number = unsafe { call(record.as_ptr(), record.len(), entry, sublayer, vcl, schedule, &mut figure) };
        (number, figure)
    }

    fn interval(record: &[u32], [entry, sublayer]: [u32; 2]) -> (u32, u32, u64) {
        let (mut known, mut microseconds) = (KNOWN_BEFORE, BEFORE);
        let (start, length) = (record.as_ptr(), record.len());
        // SAFETY: as above.
        let number =
            unsafe { declared::vps_picture_interval(start, length, entry, sublayer, &mut known, &mut microseconds) };
        (number, known, microseconds)
    }

    #[test]
    fn a_schedule_that_is_refused_stores_nothing() {
        let record = record_changed(&[]);
        for call in [declared::vps_bit_rate as OfSchedule, declared::vps_buffer_size] {
            for vcl in [2, 3, 255, 256, 1 << 16, u32::MAX - 1, u32::MAX] {
                assert_eq!(of_schedule(call, &record, [0, 0, vcl, 0]), (33, BEFORE), "vcl {vcl}");
                assert_eq!(of_schedule(call, &record[1..], [0, 0, vcl, 0]), (31, BEFORE), "vcl {vcl}");
            }
            for item in [[2, 0, 0, 0], [0, 2, 0, 0], [1, 1, 1, 0], [0, 0, 0, 2], [1, 0, 1, 2]] {
                assert_eq!(of_schedule(call, &record, item), (33, BEFORE), "{item:?}");
                assert_eq!(of_schedule(call, &record[1..], item), (31, BEFORE), "{item:?}");
            }
            assert_eq!(of_schedule(call, &record_with(&[0]), [0; 4]), (33, BEFORE), "no timing section");
            assert_eq!(of_schedule(call, &[], [0; 4]), (31, BEFORE), "nothing");
        }
    }

    #[test]
    fn a_sublayer_that_is_refused_stores_nothing() {
        let record = record_changed(&[]);
        for item in [[2, 0], [0, 2], [1, 1], [u32::MAX; 2]] {
            assert_eq!(interval(&record, item), (33, KNOWN_BEFORE, BEFORE), "{item:?}");
            assert_eq!(interval(&record[1..], item), (31, KNOWN_BEFORE, BEFORE), "{item:?}");
        }
        assert_eq!(interval(&record_with(&[0]), [0; 2]), (33, KNOWN_BEFORE, BEFORE), "no timing section");
        assert_eq!(interval(&[], [0; 2]), (31, KNOWN_BEFORE, BEFORE), "nothing");
    }

    #[test]
    fn what_is_there_or_missing_is_stored() {
        // sublayer 0 of entry 0 without an interval, and that of entry 1 with one that is rounded down to 0
        let record = record_changed(&[(16, 0), (17, 0), (1, 1), (2, 10_000_001)]);
        assert_eq!(interval(&record, [0, 0]), (0, 0, 0));
        assert_eq!(interval(&record, [1, 0]), (0, 1, 0));
        assert_eq!(of_schedule(declared::vps_bit_rate, &record, [0, 1, 0, 1]), (0, 54_016));
        assert_eq!(of_schedule(declared::vps_bit_rate, &record, [0, 1, 1, 1]), (0, 59_136));
        assert_eq!(of_schedule(declared::vps_buffer_size, &record, [0, 1, 0, 1]), (0, 27_136));
        assert_eq!(of_schedule(declared::vps_buffer_size, &record, [0, 1, 1, 1]), (0, 29_696));
    }
}
