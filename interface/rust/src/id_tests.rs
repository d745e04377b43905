//! Set id 0: which units are refused for it and what is left behind, and that no list with it is a record.
use crate::{bit_rate, buffer_size, layer_page, parse, picture_interval, section, write};
use crate::{Kind, Parsed, Refusal, Section, MOST_PAGE_BYTES, MOST_RBSP_BYTES};

const ID_ZERO: &[u8] = include_bytes!("../../../samples/id_zero.vps");
/// Units that are accepted; the set id of each is 1.
const ACCEPTED: [&[u8]; 7] = [
    include_bytes!("../../../samples/one_layer.vps"),
    include_bytes!("../../../samples/three_layers.vps"),
    include_bytes!("../../../samples/output_rows.vps"),
    include_bytes!("../../../samples/timing.vps"),
    include_bytes!("../../../samples/extension.vps"),
    include_bytes!("../../../samples/extension_zero.vps"),
    include_bytes!("../../examples/two_entries.vps"),
];

/// What stands in the buffers before a call.
const BYTE_BEFORE: u8 = 0xa5;
const NUMBER_BEFORE: u32 = 0xa5a5_a5a5;

fn record_of(unit: &[u8]) -> Vec<u32> {
    let (mut work, mut record) = ([0; 256], [0; 256]);
    let length = parse(unit, &mut work, &mut record).expect("the unit is accepted").length;
    record[..length].to_vec()
}

/// The unit with this RBSP, stuffed by hand: no RBSP here has a byte of at most 03 behind two zeros.
fn unit_of(rbsp: &[u8]) -> Vec<u8> {
    assert!(!rbsp.windows(3).any(|bytes| bytes[..2] == [0, 0] && bytes[2] <= 3) && !rbsp.ends_with(&[0, 0]));
    [&[0x00, 0x71], rbsp].concat()
}

/// That a unit is refused for its id: its RBSP stands in a work buffer of any length that has room, and all else is as before.
fn refused_for_its_id(unit: &[u8], rbsp: &[u8]) {
    for behind in [0, 1, 100] {
        for numbers in [0, 256] {
            let mut work = vec![BYTE_BEFORE; rbsp.len() + behind];
            let mut record = vec![NUMBER_BEFORE; numbers];
            assert_eq!(parse(unit, &mut work, &mut record), Err(Refusal::IdZero), "{unit:02x?}");
            assert_eq!(work[..rbsp.len()], *rbsp);
            assert!(work[rbsp.len()..].iter().all(|&byte| byte == BYTE_BEFORE), "{unit:02x?}");
            assert!(record.iter().all(|&number| number == NUMBER_BEFORE), "{unit:02x?}");
        }
    }
}

#[test]
fn the_worked_unit_with_id_0() {
    refused_for_its_id(ID_ZERO, &[0x00, 0x00, 0x00, 0x02, 0x33, 0x00, 0x00, 0x40]);
}

#[test]
fn a_header_alone_and_every_first_byte() {
    refused_for_its_id(&[0x00, 0x71], &[]);
    for byte in 0..=0xff {
        let unit = unit_of(&[byte]);
        if byte < 0x10 {
            refused_for_its_id(&unit, &[byte]);
        } else {
            let refusal = parse(&unit, &mut [0; 1], &mut [0; 256]).expect_err("one byte is no whole unit");
            assert_ne!(refusal, Refusal::IdZero, "{byte:02x}");
        }
    }
}

#[test]
fn id_0_comes_before_reserved_sublayers() {
    refused_for_its_id(&unit_of(&[0x00, 0x38]), &[0x00, 0x38]);
    assert_eq!(parse(&unit_of(&[0x10, 0x38]), &mut [0; 2], &mut []), Err(Refusal::SublayersReserved));
}

#[test]
fn header_and_lengths_come_before_id_0() {
    let mut work = [BYTE_BEFORE; MOST_RBSP_BYTES];
    assert_eq!(parse(&[0x00], &mut work, &mut []), Err(Refusal::UnitTooShort));
    assert_eq!(parse(&[0x00, 0x79, 0x01], &mut work, &mut []), Err(Refusal::NotAVps));
    let longest = [0x01; MOST_RBSP_BYTES];
    assert_eq!(parse(&[&unit_of(&longest)[..], &[0x01]].concat(), &mut work, &mut []), Err(Refusal::RbspTooLong));
    assert_eq!(parse(&unit_of(&longest), &mut work[1..], &mut []), Err(Refusal::WorkTooShort));
    assert!(work.iter().all(|&byte| byte == BYTE_BEFORE));
    assert_eq!(parse(&unit_of(&longest), &mut work, &mut []), Err(Refusal::IdZero));
    assert_eq!(work, longest);
}

#[test]
fn every_other_id_is_told() {
    for accepted in ACCEPTED {
        let record = record_of(accepted);
        for id in 1..16 {
            let mut unit = accepted.to_vec();
            unit[2] = id << 4 | unit[2] & 0x0f;
            let mut expected = record.clone();
            expected[1] = id.into();
            assert_eq!(record_of(&unit), expected);
            let mut output = [BYTE_BEFORE; 256];
            assert_eq!(write(&expected, &mut output), Ok(unit.len()));
            assert_eq!(output[..unit.len()], unit);
        }
        let (mut work, mut numbers) = ([0; 256], [0; 256]);
        let unit = [&[0x00, 0x71, accepted[2] & 0x0f], &accepted[3..]].concat();
        assert_eq!(parse(&unit, &mut work, &mut numbers), Err(Refusal::IdZero));
    }
}

#[test]
fn a_list_with_id_0_is_no_record() {
    for accepted in ACCEPTED {
        let mut list = record_of(accepted);
        list[1] = 0;
        for room in [0, 10, MOST_PAGE_BYTES] {
            let mut output = vec![BYTE_BEFORE; room];
            assert_eq!(write(&list, &mut output), Err(Refusal::NotWellFormed));
            assert_eq!(layer_page(&list, &mut output), Err(Refusal::NotWellFormed));
            assert!(output.iter().all(|&byte| byte == BYTE_BEFORE));
        }
        for which in Section::ALL {
            assert_eq!(section(&list, which), []);
        }
        for kind in [Kind::Nal, Kind::Vcl] {
            assert_eq!(bit_rate(&list, 0, 0, kind, 0), Err(Refusal::NotWellFormed));
            assert_eq!(buffer_size(&list, 0, 0, kind, 0), Err(Refusal::NotWellFormed));
        }
        assert_eq!(picture_interval(&list, 0, 0), Err(Refusal::NotWellFormed));
    }
}

#[test]
fn the_same_list_with_id_1_is_a_record() {
    for accepted in ACCEPTED {
        let list = record_of(accepted);
        assert_eq!(list[1], 1);
        assert_eq!(*section(&list, Section::General), list[..9]);
        assert_eq!(write(&list, &mut [0; 256]), Ok(accepted.len()));
        let parsed = parse(accepted, &mut [0; 256], &mut [0; 256]);
        assert!(matches!(parsed, Ok(Parsed { length, .. }) if length == list.len()));
    }
}
