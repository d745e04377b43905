// The judges' answers, by sub-command: each is a module of its own.
use judge::{
    changed_records, definition_units, figures, leaves, page, record_list, records, samples, section_list, show,
    unit_list, units,
};

use std::io::Write;
use std::process::ExitCode;

const USAGE: &str = "oracle leaves                                the list that crates/leaves_replay replays, as bytes
oracle leaves expected                       what it is to print
oracle leaves judges                         how many of its answers for more data are the Rust's, and the rule's alone
oracle unit-list                             the list that crates/units_replay replays, as bytes
oracle unit-list expected                    what it is to print
oracle unit-list shapes                      how many of its accepted cases show each shape
oracle unit-list set-aside                   how many cases of each answer are the second judge's
oracle unit-list cut                         how many of its cases end in each code, cut or whole
oracle record-list                           the list that crates/records_replay replays, as bytes
oracle record-list expected                  what it is to print
oracle record-list shapes                    how many of its written cases show each shape, and how many each way has
oracle record-list set-aside                 how many cases of each answer are the second judge's
oracle section-list                          the list that crates/sections_replay replays, as bytes
oracle section-list expected                 what it is to print
oracle section-list set-aside                how many records are well formed, and not, by the second judge
oracle show HEX                              the Rust's answer for a unit, and the second judge's where that counts
oracle page HEX                              the second judge's layer page for an accepted unit, or the refusal's number
oracle figures HEX                           the second judge's figures for an accepted unit, or the refusal's number
oracle records                               what the Rust writes for records that are not well formed, and for some that are
oracle units SEED COUNT MAXBYTES             a line a unit: bytes, and record with bits used, or refusal
oracle units-summary SEED COUNT MAXBYTES     how many of those each refusal and each shape has
oracle changed-records SEED COUNT MAXBYTES   a line a record: numbers, and the unit of at most so many bytes, or 31
oracle definition-units FOLDER               writes the tables of crates/definition_units into that folder
oracle samples FOLDER                        writes the units of samples/ into that folder";

fn main() -> ExitCode {
    let arguments: Vec<String> = std::env::args().skip(1).collect();
    let words: Vec<&str> = arguments.iter().map(String::as_str).collect();
    match words.as_slice() {
        ["leaves"] => write_out(leaves::list().bytes()),
        ["leaves", "expected"] => write_out(leaves::list().expected().as_bytes()),
        ["leaves", "judges"] => write_out(leaves::judges().as_bytes()),
        ["unit-list"] => write_out(unit_list::list().bytes()),
        ["unit-list", "expected"] => write_out(unit_list::list().expected().as_bytes()),
        ["unit-list", "shapes"] => write_out(unit_list::shapes_shown().as_bytes()),
        ["unit-list", "set-aside"] => write_out(unit_list::set_aside().as_bytes()),
        ["unit-list", "cut"] => write_out(unit_list::cut().as_bytes()),
        ["record-list"] => write_out(record_list::list().bytes()),
        ["record-list", "expected"] => write_out(record_list::list().expected().as_bytes()),
        ["record-list", "shapes"] => write_out(record_list::shapes_shown().as_bytes()),
        ["record-list", "set-aside"] => write_out(record_list::set_aside().as_bytes()),
        ["section-list"] => write_out(section_list::list().bytes()),
        ["section-list", "expected"] => write_out(section_list::list().expected().as_bytes()),
        ["section-list", "set-aside"] => write_out(section_list::set_aside().as_bytes()),
        ["show", hex] => write_of_unit(hex, |unit| show::answer(unit).into_bytes()),
        ["page", hex] => write_of_unit(hex, page::answer),
        ["figures", hex] => write_of_unit(hex, |unit| figures::answer(unit).into_bytes()),
        ["records"] => write_out(records::answers().as_bytes()),
        ["units", numbers @ ..] => write_lines(units::lines, numbers),
        ["units-summary", numbers @ ..] => write_lines(units::summary, numbers),
        ["changed-records", numbers @ ..] => write_lines(changed_records::lines, numbers),
        ["definition-units", folder] => match definition_units::write(folder) {
            Ok(counts) => write_out(counts.as_bytes()),
            Err(error) => fail(&error.to_string()),
        },
        ["samples", folder] => match samples::write(folder) {
            Ok(counts) => write_out(counts.as_bytes()),
            Err(error) => fail(&error.to_string()),
        },
        _ => fail(USAGE),
    }
}

// What a module makes of a seed, a count and the most bytes of a unit.
fn write_lines(lines: fn(u64, usize, usize) -> String, words: &[&str]) -> ExitCode {
    let numbers: Option<Vec<u64>> = words.iter().map(|word| word.parse().ok()).collect();
    match numbers.as_deref() {
        Some(&[seed, count, longest]) => write_out(lines(seed, count as usize, longest as usize).as_bytes()),
        _ => fail(USAGE),
    }
}

// What a module says of a unit.
fn write_of_unit(hex: &str, answer: impl Fn(&[u8]) -> Vec<u8>) -> ExitCode {
    match show::unit_of(hex) {
        Some(unit) => write_out(&answer(&unit)),
        None => fail("not pairs of hexadecimal digits"),
    }
}

fn write_out(bytes: &[u8]) -> ExitCode {
    match std::io::stdout().write_all(bytes) {
        Ok(()) => ExitCode::SUCCESS,
        Err(error) => fail(&error.to_string()),
    }
}

fn fail(why: &str) -> ExitCode {
    eprintln!("{why}");
    ExitCode::from(2)
}
