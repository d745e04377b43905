// A coverage-guided fuzz target over the static archive, with the Rust as judge in the same process, and the second judge
// for extension bits, id 0, cut codes, layer pages, rates, sizes and intervals. An input's first byte chooses the lengths of
// the buffers, the rest is a unit; whatever differs ends the run. What the second judge had is printed at the end, which is
// a failure if it was too little.
#![no_main]
mod traps;

use archive::figures::Figures;
use archive::pages::Pages;
use archive::reading::{Judged, Reader};
use archive::report::Report;
use archive::sections::Sections;
use archive::stuffing::Stuffing;
use archive::writing::Writer;
use judge::changed_records::changed;
use judge::id_rule::list_with_id_zero;
use judge::random::Random;
use judge::record::Reading;
use std::sync::{LazyLock, Mutex};

static REPORT: LazyLock<Mutex<Report>> = LazyLock::new(Mutex::default);

unsafe extern "C" {
    fn atexit(function: extern "C" fn()) -> i32;
    fn _exit(code: i32) -> !;
}

#[unsafe(no_mangle)]
pub extern "C" fn LLVMFuzzerInitialize(_count: *mut i32, _words: *mut *mut *mut u8) -> i32 {
    // The function lives as long as the program.
    unsafe { atexit(say_second_judge) };
    if let Ok(file) = std::env::var("VPS_FUZZ_BLOCKS") {
        traps::set(&std::fs::read_to_string(file).expect("the list of blocks"));
    }
    0
}

#[unsafe(no_mangle)]
pub extern "C" fn LLVMFuzzerTestOneInput(data: *const u8, size: usize) -> i32 {
    // The fuzzer lends so many bytes.
    let data = if size == 0 { &[][..] } else { unsafe { std::slice::from_raw_parts(data, size) } };
    let mut report = REPORT.lock().expect("one input after the other");
    if let Some((&first, unit)) = data.split_first() {
        compare(u64::from(first), unit, &mut report);
    }
    if report.differences() > 0 {
        std::process::abort();
    }
    0
}

extern "C" fn say_second_judge() {
    let report = REPORT.lock().expect("no input is compared at the end");
    report.print_second_judge();
    let few = report.few_of_short_units();
    few.iter().for_each(|words| println!("TOO FEW: {words}"));
    if !few.is_empty() {
        // Nothing is left to be done but to end with a failure.
        unsafe { _exit(1) };
    }
}

fn compare(seed: u64, unit: &[u8], report: &mut Report) {
    let judged = Judged::of(unit);
    Reader::new(seed).compare(unit, &judged, seed == 255, report);
    Stuffing::new(seed).compare("unit", unit, report);
    if let Reading::Accepted { record, .. } = judged.reading {
        let other = changed(&mut Random::new(seed), &record);
        let chosen = changed_by(&record, unit);
        // now and then the record with id 0 too
        let with_id_zero = list_with_id_zero(&record).filter(|_| seed % 8 == 0);
        for list in [record, other, chosen].into_iter().chain(with_id_zero) {
            let vps = Writer::new(seed).compare(&list, seed == 255, report);
            Pages::new(seed).compare(&list, vps.as_ref(), report);
            Figures::new(seed).compare(&list, vps.as_ref(), report);
            Sections::new(seed).compare(&list, vps.is_some(), report);
        }
    }
}

// The record with another number, as the unit's last six bytes say: those behind the trailing bits are free for it.
fn changed_by(record: &[u32], unit: &[u8]) -> Vec<u32> {
    let mut list = record.to_vec();
    if let Some([a, b, value @ ..]) = unit.last_chunk::<6>() {
        let place = usize::from(u16::from_be_bytes([*a, *b])) % list.len();
        list[place] = u32::from_be_bytes(*value);
    }
    list
}
