//! Layer pages, written out by hand.
use crate::{layer_page, parse, Refusal, MOST_PAGE_BYTES};

const ONE_LAYER: &[u8] = include_bytes!("../../../samples/one_layer.vps");
const THREE_LAYERS: &[u8] = include_bytes!("../../../samples/three_layers.vps");
const OUTPUT_ROWS: &[u8] = include_bytes!("../../../samples/output_rows.vps");

/// What stands in an output before a call.
const BEFORE: u8 = 0xff;

fn record_of(unit: &[u8]) -> Vec<u32> {
    let (mut work, mut record) = ([0; 64], [0; 128]);
    let length = parse(unit, &mut work, &mut record).expect("the sample is accepted").length;
    record[..length].to_vec()
}

/// Index and count, and the places of the layers that there are.
fn line(begin: &str, layers: &str) -> String {
    format!("{begin} {layers}{}\n", " ".repeat(64 - layers.len()))
}

/// The output that a page fills, and one that is longer, whose last bytes stay.
fn printed_whole(unit: &[u8], page: &str) {
    let record = record_of(unit);
    for behind in [0, 1, 72, 1000] {
        let mut output = vec![BEFORE; page.len() + behind];
        assert_eq!(layer_page(&record, &mut output), Ok(page.len()));
        assert_eq!(String::from_utf8_lossy(&output[..page.len()]), page);
        assert!(output[page.len()..].iter().all(|&byte| byte == BEFORE), "what is behind the page");
    }
}

#[test]
fn one_layer_is_one_line() {
    let line = b"  0  1 #                                                               \n";
    assert_eq!(line.len(), 72);
    let mut output = [BEFORE; 72];
    assert_eq!(layer_page(&record_of(ONE_LAYER), &mut output), Ok(72));
    assert_eq!(output, *line);
}

#[test]
fn layers_up_to_each_under_mode_0() {
    printed_whole(THREE_LAYERS, &[line("  0  1", "#.."), line("  1  2", "##."), line("  2  3", "###")].concat());
}

#[test]
fn output_layers_and_all_they_reach_under_mode_2() {
    // layer 3 reaches layer 0 by layer 2; layers 1 and 2 are both on layer 0
    printed_whole(OUTPUT_ROWS, &[line("  0  1", "#..."), line("  1  3", "#.##"), line("  2  3", "###.")].concat());
}

#[test]
fn too_short_an_output_stays() {
    for unit in [ONE_LAYER, THREE_LAYERS, OUTPUT_ROWS] {
        let record = record_of(unit);
        let length = layer_page(&record, &mut [0; MOST_PAGE_BYTES]).expect("there is room for every page");
        for room in 0..length {
            let mut output = vec![BEFORE; room];
            assert_eq!(layer_page(&record, &mut output), Err(Refusal::OutputTooShort), "{room} bytes");
            assert!(output.iter().all(|&byte| byte == BEFORE), "{room} bytes");
        }
    }
}

#[test]
fn not_well_formed_comes_before_too_short() {
    let record = record_of(OUTPUT_ROWS);
    let mut lists: Vec<Vec<u32>> = (0..record.len()).map(|end| record[..end].to_vec()).collect();
    lists.push([&record[..], &[0]].concat());
    // mode 3
    lists.push(record.iter().enumerate().map(|(place, &number)| if place == 6 { 3 } else { number }).collect());
    for list in lists {
        for room in [0, 71, MOST_PAGE_BYTES] {
            let mut output = vec![BEFORE; room];
            assert_eq!(layer_page(&list, &mut output), Err(Refusal::NotWellFormed), "{} numbers", list.len());
            assert!(output.iter().all(|&byte| byte == BEFORE), "{} numbers", list.len());
        }
    }
}
