//! Reads each unit named on the command line, a file each, prints its record, a line a section, its layer page, and its rates, buffer
//! sizes and picture intervals, writes the record back, and says whether the bytes are the same. A refusal is printed by its number
//! and its sentence.
use std::error::Error;
use std::{env, fs};
use teglyovash::{bit_rate, buffer_size, layer_page, parse, picture_interval, section, write, Kind, Refusal, Section};
use teglyovash::{MOST_PAGE_BYTES, MOST_RBSP_BYTES, MOST_RECORD_NUMBERS, MOST_UNIT_BYTES};

fn print_section(record: &[u32], which: Section) {
    let numbers: String = section(record, which).iter().map(|n| format!(" {n}")).collect();
    println!("{}{numbers}", which.name());
}

fn print_page(record: &[u32]) -> Result<(), Refusal> {
    let mut page = vec![0; MOST_PAGE_BYTES];
    let length = layer_page(record, &mut page)?;
    print!("{}", String::from_utf8_lossy(&page[..length]));
    Ok(())
}

/// The schedules of one kind, from 0 on until one is refused.
fn print_schedules(record: &[u32], entry: u32, sublayer: u32, kind: Kind) -> Result<(), Refusal> {
    let name = if kind == Kind::Vcl { "VCL" } else { "NAL" };
    let mut schedule = 0;
    while let Ok(rate) = bit_rate(record, entry, sublayer, kind, schedule) {
        let size = buffer_size(record, entry, sublayer, kind, schedule)?;
        println!("  {name} {schedule}: {rate} bit/s, buffer of {size} bits");
        schedule += 1;
    }
    Ok(())
}

/// The sublayers of an entry, from 0 on until one is refused.
fn print_entry(record: &[u32], entry: u32) -> Result<(), Refusal> {
    let mut sublayer = 0;
    while let Ok(interval) = picture_interval(record, entry, sublayer) {
        let text = interval.map_or("missing".into(), |microseconds| format!("{microseconds} microseconds"));
        println!("entry {entry}, sublayer {sublayer}: picture interval {text}");
        print_schedules(record, entry, sublayer, Kind::Nal)?;
        print_schedules(record, entry, sublayer, Kind::Vcl)?;
        sublayer += 1;
    }
    Ok(())
}

/// The entries, and what is said of the one behind the last.
fn print_figures(record: &[u32]) -> Result<(), Refusal> {
    let mut entry = 0;
    while picture_interval(record, entry, 0).is_ok() {
        print_entry(record, entry)?;
        entry += 1;
    }
    if let Err(refusal) = bit_rate(record, entry, 0, Kind::Nal, 0) {
        println!("entry {entry}: refused {}: {refusal}", refusal.number());
    }
    Ok(())
}

fn round_trip(unit: &[u8]) -> Result<(), Refusal> {
    let mut work = vec![0; MOST_RBSP_BYTES];
    let mut numbers = vec![0; MOST_RECORD_NUMBERS];
    let parsed = parse(unit, &mut work, &mut numbers)?;
    let record = &numbers[..parsed.length];
    println!("ok {}, bits used {}", parsed.length, parsed.bits_used);
    for which in Section::ALL {
        print_section(record, which);
    }
    print_page(record)?;
    print_figures(record)?;
    let mut output = vec![0; MOST_UNIT_BYTES];
    let written = write(record, &mut output)?;
    let same = if output[..written] == *unit { "the same" } else { "not the same" };
    println!("written back: {written} bytes, {same}");
    Ok(())
}

fn main() -> Result<(), Box<dyn Error>> {
    for name in env::args().skip(1) {
        let unit = fs::read(&name)?;
        println!("{name}");
        if let Err(refusal) = round_trip(&unit) {
            println!("refused {}: {refusal}", refusal.number());
        }
    }
    Ok(())
}
