//! Codes that the end of the RBSP cuts: which units are refused for one and what is left behind, what comes before it, and what is
//! no cut.
use crate::{buffer_size, parse, rbsp_to_ebsp, Kind, Parsed, Refusal};

const ONE_LAYER: &[u8] = include_bytes!("../../../samples/one_layer.vps");
const THREE_LAYERS: &[u8] = include_bytes!("../../../samples/three_layers.vps");
const OUTPUT_ROWS: &[u8] = include_bytes!("../../../samples/output_rows.vps");
const TIMING: &[u8] = include_bytes!("../../../samples/timing.vps");
const TWO_ENTRIES: &[u8] = include_bytes!("../../examples/two_entries.vps");
const DAMAGED: &[u8] = include_bytes!("../../../samples/damaged.vps");
const CUT_CODE: &[u8] = include_bytes!("../../../samples/cut_code.vps");

/// What stands in the buffers before a call.
const BYTE_BEFORE: u8 = 0xa5;
const NUMBER_BEFORE: u32 = 0xa5a5_a5a5;

/// RBSPs are put together of bits, with blanks between fields. Id 1 and one sublayer; two layers, the second on the first, so that
/// one set has several layers; and one profile.
const TWO_LAYERS: &str = "0001 000001 000 0  000000 000001 0 0 1  00 00000000 0";
/// The same of four layers, each on the one below, so that three sets have several.
const FOUR_LAYERS: &str = "0001 000011 000 0  000000 000001 0 0 1 000010 0 0 01 000011 0 0 001  00 00000000 0000";
/// Three layers, each a set, with two profiles; the second takes all but its level from the first.
const THREE_SETS: &str = "0001 000010 000 1  000000 000001 000010 1  00000001 0 000000";
/// A profile, and one that has its level alone.
const PROFILE: &str = "0000001 0 00110011 0 0 000000 00000000";
const LEVEL: &str = "00110011 0 0 000000";
/// One slot of picture buffers, and a set's picture size and depth, in the shortest codes.
const SLOT: &str = "1 1 1";
const SIZE: &str = "1 1 00 1";
/// The flag of the timing section, one unit of one second, and which schedules there are: none, or NAL.
const CLOCK: &str = "1 00000000000000000000000000000001 00000000000000000000000000000001";
const NO_SCHEDULES: &str = "0 0";
const SCHEDULES: &str = "1 0 0 0 0000 0000";
const UNIT_SCHEDULES: &str = "1 0 0 1 00000000 0000 0000 0000";

fn joined(parts: &[&str]) -> String {
    parts.concat().replace(' ', "")
}

/// The code of a number: as many zeros as the bits of number + 1 behind its highest, and number + 1.
fn code(number: u64) -> String {
    let suffixed = format!("{:b}", number + 1);
    "0".repeat(suffixed.len() - 1) + &suffixed
}

/// Whole bytes of bits.
fn bytes_of(bits: &str) -> Vec<u8> {
    assert_eq!(bits.len() % 8, 0, "{bits}");
    let byte = |chunk: &[u8]| chunk.iter().fold(0, |byte, bit| byte << 1 | (bit - b'0'));
    bits.as_bytes().chunks(8).map(byte).collect()
}

/// With zeros up to a byte's end.
fn padded(bits: &str) -> String {
    bits.to_owned() + &"0".repeat(bits.len().next_multiple_of(8) - bits.len())
}

fn unit_of(rbsp: &[u8]) -> Vec<u8> {
    let mut payload = vec![0; rbsp.len() + rbsp.len() / 2];
    let length = rbsp_to_ebsp(rbsp, &mut payload).expect("the payload has room");
    [&[0x00, 0x71], &payload[..length]].concat()
}

/// The refusal of a unit, with so many bytes behind its RBSP in the work buffer and so many numbers for a record: the RBSP stands in
/// the work buffer, and all else is as before.
fn refusal_with(unit: &[u8], rbsp: &[u8], behind: usize, numbers: usize) -> Refusal {
    let mut work = vec![BYTE_BEFORE; rbsp.len() + behind];
    let mut record = vec![NUMBER_BEFORE; numbers];
    let refusal = parse(unit, &mut work, &mut record).expect_err("the unit is refused");
    assert_eq!(work[..rbsp.len()], *rbsp);
    assert!(work[rbsp.len()..].iter().all(|&byte| byte == BYTE_BEFORE), "{unit:02x?}");
    assert!(record.iter().all(|&number| number == NUMBER_BEFORE), "{unit:02x?}");
    refusal
}

/// The refusal of a unit, the same with all buffers that have room for its RBSP.
fn refusal_of(unit: &[u8], rbsp: &[u8]) -> Refusal {
    let refusals =
        [(0, 0), (0, 256), (1, 256), (100, 0)].map(|(behind, numbers)| refusal_with(unit, rbsp, behind, numbers));
    assert_eq!(refusals, [refusals[0]; 4], "{unit:02x?}");
    refusals[0]
}

/// The refusal of the unit whose RBSP has these bits.
fn refused(bits: &str) -> Refusal {
    let rbsp = bytes_of(bits);
    refusal_of(&unit_of(&rbsp), &rbsp)
}

/// That a code, given as the bits up to it and with it, is refused wherever a byte's end cuts it, from its first bit to its last.
fn cut_at_every_byte(before: &str, whole: &str) {
    let ends = before.len().div_ceil(8)..whole.len().div_ceil(8);
    for end in ends {
        assert_eq!(refused(&whole[..8 * end]), Refusal::CodePastEnd, "{} of {} bits", 8 * end - before.len(), whole);
    }
}

/// Every code that a unit may have: what the RBSP has before it, and the refusal of a number that is over the code's limit, if any.
fn codes() -> Vec<(String, Option<Refusal>)> {
    let two = joined(&[TWO_LAYERS, PROFILE]);
    let sizes = joined(&[&two, "1", SLOT]);
    let timing = joined(&[&sizes, SIZE, CLOCK]);
    let entry = joined(&[&timing, UNIT_SCHEDULES, "1 1 1 1"]);
    let four = joined(&[FOUR_LAYERS, PROFILE]);
    let indices = joined(&[&four, "010", SLOT, SLOT, SIZE]);
    let entries = joined(&[&four, "1", SLOT, SIZE, SIZE, SIZE, CLOCK, NO_SCHEDULES, "010 1 1 1 1"]);
    vec![
        (joined(&[THREE_SETS, PROFILE, LEVEL]), Some(Refusal::PtlIndex)),
        (two.clone(), Some(Refusal::DpbSlots)),
        (two.clone() + "1", Some(Refusal::DpbBuffering)),
        (two.clone() + "11", Some(Refusal::DpbReorder)),
        (two.clone() + "111", None),
        (sizes.clone(), None),
        (sizes.clone() + "1", None),
        (sizes.clone() + "1100", Some(Refusal::DpbDepth)),
        (indices, Some(Refusal::DpbIndex)),
        (joined(&[&timing, SCHEDULES]), Some(Refusal::ScheduleCount)),
        (joined(&[&timing, NO_SCHEDULES]), Some(Refusal::TimingEntries)),
        (joined(&[&timing, NO_SCHEDULES, "1 1"]), Some(Refusal::ElementalDuration)),
        (entry.clone(), None),
        (entry.clone() + "1", None),
        (entry.clone() + "11", None),
        (entry + "111", None),
        (entries, Some(Refusal::TimingIndex)),
    ]
}

/// One NAL schedule, up to the last code of the unit, its size, which begins at this bit of a byte.
fn up_to_size(bit: usize) -> String {
    let timing = joined(&[TWO_LAYERS, PROFILE, "1", SLOT, SIZE, CLOCK, SCHEDULES, "1 1"]);
    let durations = ["11", "000"];
    (0..8)
        .map(|which| joined(&[&timing, durations[which % 2], &code((1 << (which / 2)) - 1)]))
        .find(|bits| bits.len() % 8 == bit)
        .expect("durations have lengths of both kinds, and rates of each")
}

/// The size, as a code with this many zeros and with zeros or ones for a suffix, cut at every byte, whole at the end, and accepted.
fn size_cut_and_whole(bit: usize, zeros: usize) {
    let before = up_to_size(bit);
    for number in [(1_u64 << zeros) - 1, (2_u64 << zeros) - 2] {
        let whole = before.clone() + &code(number);
        cut_at_every_byte(&before, &whole);
        if whole.len() % 8 == 0 {
            assert_eq!(refused(&whole), Refusal::StopBitMissing, "{whole}");
        }
        let unit = unit_of(&bytes_of(&padded(&joined(&[&whole, "0 0 1"]))));
        let mut record = [0; 128];
        let Ok(Parsed { length, bits_used }) = parse(&unit, &mut [0; 64], &mut record) else { panic!("{unit:02x?}") };
        assert_eq!(bits_used, (whole.len() as u64 + 3).next_multiple_of(8));
        assert_eq!(buffer_size(&record[..length], 0, 0, Kind::Nal, 0), Ok((number + 1) << 4));
    }
}

/// What each proper beginning of a unit is refused with, as numbers and how many follow each other.
fn beginnings(unit: &[u8]) -> Vec<(u32, usize)> {
    let mut runs: Vec<(u32, usize)> = vec![];
    for end in 0..unit.len() {
        let refusal = parse(&unit[..end], &mut [0; 256], &mut [0; 256]).expect_err("no beginning is accepted");
        match runs.last_mut() {
            Some((number, count)) if *number == refusal.number() => *count += 1,
            _ => runs.push((refusal.number(), 1)),
        }
    }
    runs
}

#[test]
fn the_samples_that_a_fade_cut() {
    assert_eq!(DAMAGED, &THREE_LAYERS[..24]);
    assert_eq!(CUT_CODE, &THREE_LAYERS[..26]);
    // two zeros are left of the height of 1080, or all but three bits of its suffix
    let rbsp = bytes_of(&joined(&[
        "0001 000010 000 0 000000 000001 0 0 1 000010 0 0 01 00 00000000 0000000",
        "0000001 0 00110011 0 1 000000 00000000 1",
        &[code(4), code(2), code(0), code(1920), code(1080)].concat(),
        &["01", &code(2), &code(1920), &code(1080)[..18]].concat(),
    ]));
    assert_eq!(refusal_of(CUT_CODE, &rbsp), Refusal::CodePastEnd);
    assert_eq!(refusal_of(DAMAGED, &rbsp[..21]), Refusal::CodePastEnd);
}

#[test]
fn every_beginning_of_accepted_units() {
    assert_eq!(beginnings(ONE_LAYER), [(1, 2), (34, 1), (27, 8)]);
    assert_eq!(beginnings(THREE_LAYERS), [(1, 2), (34, 1), (27, 1), (6, 3), (35, 20), (27, 1)]);
    assert_eq!(beginnings(OUTPUT_ROWS), [(1, 2), (34, 1), (27, 1), (6, 4), (7, 1), (9, 2), (35, 18), (27, 1)]);
    assert_eq!(beginnings(TIMING), [(1, 2), (34, 1), (27, 1), (6, 2), (35, 7), (21, 6), (35, 7)]);
    assert_eq!(beginnings(TWO_ENTRIES), [(1, 2), (34, 1), (27, 1), (6, 3), (35, 21), (21, 6), (35, 102), (27, 1)]);
}

#[test]
fn each_code_cut_and_each_limit() {
    for (before, over) in codes() {
        // 15 zeros and 16 ones, so that what is left of it may be over the limit too
        let whole = before.clone() + &code(65_534);
        cut_at_every_byte(&before, &whole);
        if let Some(over) = over {
            // a code behind it that the end cuts does not count
            assert_eq!(refused(&padded(&whole)), over, "{whole}");
        }
    }
}

#[test]
fn a_code_at_every_bit_of_a_byte() {
    for bit in 0..8 {
        (0..32).for_each(|zeros| size_cut_and_whole(bit, zeros));
    }
}

#[test]
fn zeros_and_the_end() {
    for bit in 0..8 {
        let before = up_to_size(bit);
        // 0 to 47 zeros inside the RBSP, 31 and 32 among them
        for bytes in 0..6 {
            let bits = padded(&before) + &"0".repeat(8 * bytes);
            let zeros = bits.len() - before.len();
            let refusal = if zeros < 32 { Refusal::CodePastEnd } else { Refusal::CodeTooLong };
            assert_eq!(refused(&bits), refusal, "{zeros} zeros");
        }
    }
}

#[test]
fn a_limit_broken_by_the_last_bit() {
    // the highest buffering is 15
    let bits = joined(&[TWO_LAYERS, PROFILE, "1", &code(127)]);
    assert_eq!(refused(&bits), Refusal::DpbBuffering);
    assert_eq!(refused(&bits[..bits.len() - 8]), Refusal::CodePastEnd);
}

#[test]
fn fixed_fields_past_the_end_read_0() {
    let sizes = joined(&[TWO_LAYERS, PROFILE, "1 1 1", &code(7), "1 1"]);
    // what is behind the depth ends the byte: the timing flag is 1 and the clock past the end, or there is nothing behind it
    assert_eq!(refused(&joined(&[&sizes, "00 1 1"])), Refusal::TimingZero);
    assert_eq!(refused(&joined(&[&sizes, "00 1 0"])), Refusal::StopBitMissing);
    // the chroma format is past the end, and so the depth
    let sizes = joined(&[TWO_LAYERS, PROFILE, "1 1 1 1 1", &code(1)]);
    assert_eq!(refused(&sizes), Refusal::CodePastEnd);
}

#[test]
fn header_and_lengths_come_before_a_cut_code() {
    let rbsp = bytes_of(&joined(&[TWO_LAYERS, PROFILE]));
    let unit = unit_of(&rbsp);
    let mut work = [BYTE_BEFORE; 9];
    assert_eq!(parse(&[&[0x00, 0x79], &unit[2..]].concat(), &mut work, &mut []), Err(Refusal::NotAVps));
    assert_eq!(parse(&unit, &mut work[1..], &mut []), Err(Refusal::WorkTooShort));
    assert_eq!(work, [BYTE_BEFORE; 9]);
    assert_eq!(parse(&unit, &mut work, &mut []), Err(Refusal::CodePastEnd));
    assert_eq!(work[..], rbsp);
}

#[test]
fn stuffing_at_the_end_is_no_bit_of_a_code() {
    // 31 zeros of a code end the RBSP, and the unit ends in a 03 behind them or without it
    let rbsp = bytes_of(&(padded(&up_to_size(1)) + &"0".repeat(24)));
    let stuffed = unit_of(&rbsp);
    assert!(stuffed.ends_with(&[0, 0, 3, 0, 0, 3]));
    assert_eq!(refusal_of(&stuffed, &rbsp), Refusal::CodePastEnd);
    assert_eq!(refusal_of(&stuffed[..stuffed.len() - 1], &rbsp), Refusal::CodePastEnd);
}
