//! Rates, buffer sizes and picture intervals, worked out by hand.
use crate::{bit_rate, buffer_size, parse, picture_interval, write, Kind, Refusal, MOST_UNIT_BYTES};

const ONE_LAYER: &[u8] = include_bytes!("../../../samples/one_layer.vps");
const TIMING: &[u8] = include_bytes!("../../../samples/timing.vps");
const TWO_ENTRIES: &[u8] = include_bytes!("../../examples/two_entries.vps");

/// The first record of crates/vps_definition/specs/ViewCases.antt in front of its timing section: three layers, two sets of several
/// layers, two sublayers.
const IN_FRONT: [u32; 57] = [
    3, 1, 1, 0, 0, 0, 0, 0, 0, // general
    5, 1, 0, 6, 0, 0, 1, 2, 9, 0, 1, 0, 2, 1, 1, // layers
    0, // rows
    1, 1, 1, 1, 0, 51, 0, 1, 0, 0, 0, 0, // profiles
    3, 0, 0, 0, // output layer sets
    1, 1, 4, 2, 0, 2, 1920, 1080, 1, 2, 0, 1920, 1080, 1, 2, 0, // picture buffers
];

/// Its timing section: two entries, of two sublayers and one, each sublayer with two NAL and two VCL schedules.
const SECTION: [u32; 90] = [
    1, 1001, 60000, 1, 1, 0, 1, 0, 2, 3, 0, 1, 1, 2, // flag, general numbers, sublayer flag, count
    1, // max tid of entry 0
    0, 1, 7, 0, // its sublayer 0
    100, 101, 102, 103, 1, 110, 111, 112, 113, 1, //
    120, 121, 122, 123, 1, 130, 131, 132, 133, 1, //
    0, 1, 8, 0, // its sublayer 1
    200, 201, 202, 203, 1, 210, 211, 212, 213, 1, //
    220, 221, 222, 223, 1, 230, 231, 232, 233, 1, //
    0, // max tid of entry 1
    0, 1, 9, 0, // its sublayer
    300, 301, 302, 303, 1, 310, 311, 312, 313, 1, //
    320, 321, 322, 323, 1, 330, 331, 332, 333, 1, //
    0, 1, // indices
];

/// Entry, sublayer, picture interval, and rate and size of its NAL schedules and of its VCL schedules.
const FIGURES: [(u32, u32, u64, [[(u64, u64); 2]; 2]); 3] = [
    (0, 0, 133_466, [[(25_856, 13_056), (28_416, 14_336)], [(30_976, 15_616), (33_536, 16_896)]]),
    (0, 1, 150_150, [[(51_456, 25_856), (54_016, 27_136)], [(56_576, 28_416), (59_136, 29_696)]]),
    (1, 0, 166_833, [[(77_056, 38_656), (79_616, 39_936)], [(82_176, 41_216), (84_736, 42_496)]]),
];

/// The record with this timing section, which is well formed.
pub(crate) fn record_with(timing: &[u32]) -> Vec<u32> {
    let end = 57 + u32::try_from(timing.len()).expect("a section is short");
    let record = [&IN_FRONT[..], timing, &[0], &[9, 24, 25, 37, 41, 57, end, end + 9]].concat();
    assert!(write(&record, &mut [0; 1024]).is_ok(), "{timing:?}");
    record
}

/// The record with some numbers of its timing section changed, each given by its place in the section.
pub(crate) fn record_changed(changes: &[(usize, u32)]) -> Vec<u32> {
    let mut timing = SECTION;
    for &(place, number) in changes {
        timing[place] = number;
    }
    record_with(&timing)
}

fn record_of(unit: &[u8]) -> Vec<u32> {
    let (mut work, mut record) = ([0; 256], [0; 256]);
    let length = parse(unit, &mut work, &mut record).expect("the unit is accepted").length;
    record[..length].to_vec()
}

/// Rate and size, which are refused alike.
fn schedule(record: &[u32], entry: u32, sublayer: u32, kind: Kind, schedule: u32) -> Result<(u64, u64), Refusal> {
    let rate = bit_rate(record, entry, sublayer, kind, schedule);
    let size = buffer_size(record, entry, sublayer, kind, schedule);
    assert_eq!(rate.err(), size.err());
    Ok((rate?, size?))
}

#[test]
fn the_unit_of_the_examples_has_this_record() {
    assert_eq!(record_of(TWO_ENTRIES), record_changed(&[]));
    let mut output = [0; MOST_UNIT_BYTES];
    let length = write(&record_changed(&[]), &mut output).expect("the record is well formed");
    assert_eq!(output[..length], *TWO_ENTRIES);
}

#[test]
fn each_item_that_is_there_and_no_other() {
    let record = record_changed(&[]);
    for (entry, sublayer) in (0..4).flat_map(|entry| (0..4).map(move |sublayer| (entry, sublayer))) {
        let row = FIGURES.iter().find(|row| (row.0, row.1) == (entry, sublayer));
        let interval = row.map(|row| Some(row.2)).ok_or(Refusal::ItemMissing);
        assert_eq!(picture_interval(&record, entry, sublayer), interval, "{entry} {sublayer}");
        for (kind, number) in [Kind::Nal, Kind::Vcl].into_iter().flat_map(|kind| (0..4).map(move |n| (kind, n))) {
            let figures = row.and_then(|row| row.3[kind as usize].get(number as usize).copied());
            let said = schedule(&record, entry, sublayer, kind, number);
            assert_eq!(said, figures.ok_or(Refusal::ItemMissing), "{entry} {sublayer} {kind:?} {number}");
        }
    }
}

#[test]
fn nothing_is_at_the_greatest_numbers() {
    let record = record_changed(&[]);
    for [entry, sublayer, number] in [[u32::MAX, 0, 0], [0, u32::MAX, 0], [0, 0, u32::MAX], [u32::MAX; 3]] {
        for kind in [Kind::Nal, Kind::Vcl] {
            assert_eq!(schedule(&record, entry, sublayer, kind, number), Err(Refusal::ItemMissing));
        }
    }
    for [entry, sublayer] in [[u32::MAX, 0], [0, u32::MAX], [u32::MAX; 2]] {
        assert_eq!(picture_interval(&record, entry, sublayer), Err(Refusal::ItemMissing));
    }
}

#[test]
fn schedules_without_du_numbers() {
    let record = record_of(TIMING);
    assert_eq!(schedule(&record, 0, 0, Kind::Nal, 0), Ok((256, 80)));
    assert_eq!(schedule(&record, 0, 0, Kind::Nal, 1), Ok((320, 80)));
    assert_eq!(schedule(&record, 0, 0, Kind::Nal, 2), Err(Refusal::ItemMissing));
}

#[test]
fn schedules_of_one_kind_alone() {
    let nal = record_of(TIMING);
    // the NAL flag and the VCL flag of the section, which begins at 43
    let mut vcl = nal.clone();
    (vcl[46], vcl[47]) = (0, 1);
    for (record, kind, other) in [(nal, Kind::Nal, Kind::Vcl), (vcl, Kind::Vcl, Kind::Nal)] {
        assert_eq!(schedule(&record, 0, 0, kind, 1), Ok((320, 80)));
        assert_eq!(schedule(&record, 0, 0, other, 0), Err(Refusal::ItemMissing));
        assert_eq!(schedule(&record, 0, 0, other, 1), Err(Refusal::ItemMissing));
    }
}

#[test]
fn intervals_without_schedules() {
    // NAL flag and VCL flag are 0
    let timing = [
        1, 25, 1000, 0, 0, 0, 0, 0, 0, 0, 0, 0, 1, 2, // flag, general numbers, sublayer flag, count
        1, 1, 1, 0, 0, 0, 0, 0, 0, // entry 0, of two sublayers
        0, 0, 1, 3, 0, // entry 1, of one
        0, 1, // indices
    ];
    let record = record_with(&timing);
    assert_eq!(picture_interval(&record, 0, 0), Ok(Some(25_000)));
    assert_eq!(picture_interval(&record, 0, 1), Ok(None));
    assert_eq!(picture_interval(&record, 1, 0), Ok(Some(100_000)));
    assert_eq!(picture_interval(&record, 1, 1), Err(Refusal::ItemMissing));
    for kind in [Kind::Nal, Kind::Vcl] {
        assert_eq!(schedule(&record, 0, 0, kind, 0), Err(Refusal::ItemMissing));
    }
}

#[test]
fn one_stored_sublayer_under_a_max_tid_of_1() {
    // the sublayer flag is 0, and each entry stores its highest sublayer alone
    let timing = [
        1, 1, 8, 1, 0, 0, 0, 0, 4, 5, 0, 0, 0, 2, // flag, general numbers, sublayer flag, count
        1, 1, 1, 0, 0, 10, 20, 0, // entry 0
        1, 0, 1, 1, 0, 30, 40, 1, // entry 1
        0, 1, // indices
    ];
    let record = record_with(&timing);
    assert_eq!(schedule(&record, 0, 0, Kind::Nal, 0), Ok((11_264, 10_752)));
    assert_eq!(schedule(&record, 1, 0, Kind::Nal, 0), Ok((31_744, 20_992)));
    assert_eq!(picture_interval(&record, 0, 0), Ok(Some(125_000)));
    assert_eq!(picture_interval(&record, 1, 0), Ok(Some(250_000)));
    for entry in 0..2 {
        assert_eq!(schedule(&record, entry, 1, Kind::Nal, 0), Err(Refusal::ItemMissing));
        assert_eq!(picture_interval(&record, entry, 1), Err(Refusal::ItemMissing));
    }
}

#[test]
fn no_timing_section() {
    for record in [record_of(ONE_LAYER), record_with(&[0])] {
        assert_eq!(picture_interval(&record, 0, 0), Err(Refusal::ItemMissing));
        for kind in [Kind::Nal, Kind::Vcl] {
            assert_eq!(schedule(&record, 0, 0, kind, 0), Err(Refusal::ItemMissing));
        }
    }
}

#[test]
fn the_greatest_and_the_least_figures() {
    // scales, then rate field and size field of the first NAL schedule and of the last VCL schedule
    let most = u32::MAX - 1;
    let record = record_changed(&[(8, 15), (9, 15), (19, most), (20, most), (83, most), (84, most)]);
    assert_eq!(schedule(&record, 0, 0, Kind::Nal, 0), Ok((9_007_199_252_643_840, 2_251_799_813_160_960)));
    assert_eq!(schedule(&record, 1, 0, Kind::Vcl, 1), Ok((9_007_199_252_643_840, 2_251_799_813_160_960)));
    let record = record_changed(&[(8, 0), (9, 0), (19, 0), (20, 0)]);
    assert_eq!(schedule(&record, 0, 0, Kind::Nal, 0), Ok((64, 16)));
}

#[test]
fn each_scale_on_its_own() {
    for (rate_scale, size_scale) in (0..16).flat_map(|rate| (0..16).map(move |size| (rate, size))) {
        let record = record_changed(&[(8, rate_scale), (9, size_scale), (19, 0), (20, 0)]);
        assert_eq!(schedule(&record, 0, 0, Kind::Nal, 0), Ok((64 << rate_scale, 16 << size_scale)));
    }
}

#[test]
fn intervals_are_rounded_down() {
    // units, scale, elemental field
    for (units, scale, elemental, interval) in [
        (1, u32::MAX, 0, 0),
        (1, 1_000_001, 0, 0),
        (1, 1_000_000, 0, 1),
        (1, 500_001, 0, 1),
        (2, 3, 0, 666_666),
        (1_001, 60_000, 0, 16_683),
        (999_999, 1_000_000, 0, 999_999),
        (u32::MAX, u32::MAX, 2047, 2_048_000_000),
        (u32::MAX, 7, 2047, 1_256_584_717_165_714_285),
        (u32::MAX, 1, 2047, 8_796_093_020_160_000_000),
    ] {
        let record = record_changed(&[(1, units), (2, scale), (17, elemental)]);
        assert_eq!(picture_interval(&record, 0, 0), Ok(Some(interval)), "{units} {scale} {elemental}");
    }
}

#[test]
fn a_missing_interval_is_no_refusal() {
    // rate-within-CVS flag and elemental field of entry 0's sublayer 0; all others have an interval as before
    let record = record_changed(&[(16, 0), (17, 0)]);
    assert_eq!(picture_interval(&record, 0, 0), Ok(None));
    assert_eq!(picture_interval(&record, 0, 1), Ok(Some(150_150)));
    assert_eq!(picture_interval(&record, 1, 0), Ok(Some(166_833)));
    // the rate-general flag, which says nothing here; the other is 1 with it
    let record = record_changed(&[(15, 1)]);
    assert_eq!(picture_interval(&record, 0, 0), Ok(Some(133_466)));
}

#[test]
fn not_well_formed_comes_first() {
    let record = record_changed(&[]);
    let mut lists: Vec<Vec<u32>> = (0..record.len()).map(|end| record[..end].to_vec()).collect();
    lists.push([&record[..], &[0]].concat());
    // mode 3, and a scale of 0
    for (place, number) in [(6, 3), (59, 0)] {
        lists.push(record.clone());
        lists.last_mut().expect("it was pushed")[place] = number;
    }
    for list in lists {
        for item in [0, u32::MAX] {
            assert_eq!(picture_interval(&list, item, item), Err(Refusal::NotWellFormed));
            for kind in [Kind::Nal, Kind::Vcl] {
                assert_eq!(schedule(&list, item, item, kind, item), Err(Refusal::NotWellFormed));
            }
        }
    }
}
