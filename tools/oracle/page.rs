// The second judge, for the layer page, which the Rust has not: the request's text written out over the Rust's structures.
// How many sets there are, and how many of them have several layers, is held to the Rust's own counts.
use crate::judges::found;
use bitstream::h266::VvcVps;
use std::collections::BTreeSet;

pub const LINE_BYTES: usize = 72;

// 256 rows, and the set before them.
pub const MOST_SETS: usize = 257;

pub const MOST_LAYERS: usize = 64;

// What is printed of a structure: the sets' layers, and the bytes.
pub struct Page {
    pub sets: Vec<BTreeSet<usize>>,
    pub bytes: Vec<u8>,
}

impl Page {
    // The structure is one that the judges read or write.
    pub fn of(v: &VvcVps) -> Self {
        let sets = sets_of(v);
        assert_eq!(sets.len(), v.vps_ols_ptl_idx.len(), "a set for each PTL index, which the Rust counts");
        let several = sets.iter().filter(|set| set.len() > 1).count();
        assert_eq!(several, v.ols_dpbs.len(), "a set of several layers for each DPB entry, which the Rust counts");
        let text: String = sets.iter().enumerate().map(|(index, set)| line(index, set, v.layers.len())).collect();
        assert_eq!(text.len(), LINE_BYTES * sets.len(), "71 characters and a line feed for each set");
        Self { sets, bytes: text.into_bytes() }
    }
}

// Under each-layer 1 set i holds layer i alone, under modes 0 and 1 layers 0 to i. Under mode 2 set 0 holds layer 0, and
// set i the output layers of row i - 1 and all they reach.
fn sets_of(v: &VvcVps) -> Vec<BTreeSet<usize>> {
    let layers = 0..v.layers.len();
    match (v.vps_each_layer_is_an_ols_flag, v.vps_ols_mode_idc) {
        (1, _) => layers.map(|i| BTreeSet::from([i])).collect(),
        (_, 0 | 1) => layers.map(|i| (0..=i).collect()).collect(),
        _ => {
            let first = std::iter::once(BTreeSet::from([0]));
            first.chain(v.vps_ols_output_layer_flags.iter().map(|row| reached(v, row))).collect()
        }
    }
}

// The output layers of a row and all they reach, each looked at once.
fn reached(v: &VvcVps, row: &[u8]) -> BTreeSet<usize> {
    let mut found = BTreeSet::new();
    let mut waiting = flagged(row);
    while let Some(layer) = waiting.pop() {
        if found.insert(layer) {
            waiting.extend(flagged(&v.layers[layer].vps_direct_ref_layer_flag));
        }
    }
    found
}

fn flagged(flags: &[u8]) -> Vec<usize> {
    (0..flags.len()).filter(|&i| flags[i] == 1).collect()
}

fn line(index: usize, set: &BTreeSet<usize>, layers: usize) -> String {
    let place = |i: usize| match i {
        _ if i >= layers => ' ',
        _ if set.contains(&i) => '#',
        _ => '.',
    };
    let places: String = (0..MOST_LAYERS).map(place).collect();
    format!("{index:>3} {:>2} {places}\n", set.len())
}

// How many sets have a layer that is two steps away or more: no output layer, and none that an output layer refers to.
pub fn sets_of_two_steps(v: &VvcVps, page: &Page) -> usize {
    if v.vps_each_layer_is_an_ols_flag == 1 || v.vps_ols_mode_idc != 2 {
        return 0;
    }
    let direct = |i: &usize| flagged(&v.layers[*i].vps_direct_ref_layer_flag);
    let near = |row: &Vec<u8>| -> BTreeSet<usize> {
        let outputs = flagged(row);
        outputs.iter().flat_map(direct).chain(outputs.iter().copied()).collect()
    };
    let rows = v.vps_ols_output_layer_flags.iter().zip(&page.sets[1..]);
    rows.filter(|(row, set)| !set.is_subset(&near(row))).count()
}

// The page of an accepted unit, or the refusal's number, in words.
pub fn answer(unit: &[u8]) -> Vec<u8> {
    match found(unit) {
        Ok((vps, _)) => Page::of(&vps).bytes,
        Err(number) => format!("refused {number}\n").into_bytes(),
    }
}
