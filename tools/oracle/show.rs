// The Rust's answer for one unit, in words, and the second judge's where that one counts.
use crate::extension_rule::Found;
use crate::judges::{Judges, Rule};
use bitstream::h266::{parse_vps, write_vps_nal};

// The bytes of a line of hexadecimal digits.
pub fn unit_of(hex: &str) -> Option<Vec<u8>> {
    if !hex.is_ascii() || hex.len() % 2 != 0 {
        return None;
    }
    (0..hex.len() / 2).map(|i| u8::from_str_radix(&hex[2 * i..2 * i + 2], 16).ok()).collect()
}

pub fn hex_of(bytes: &[u8]) -> String {
    bytes.iter().map(|b| format!("{b:02x}")).collect()
}

// What reading says, and for an accepted unit its fields and what writing makes of them.
pub fn answer(unit: &[u8]) -> String {
    let judges = Judges::of(unit);
    let by_rule = judges.set_aside().map_or(String::new(), |rule| ruled(rule, judges.found()));
    let cut = judges.cut(unit).map_or(String::new(), |cut| {
        format!("cut code: {}, at bit {} of the RBSP: there is {}\n", cut.name.0, cut.place, cut.left.name())
    });
    by_rust(unit) + &by_rule + &cut
}

fn ruled(rule: Rule, found: &Found) -> String {
    let name = rule.name();
    match found {
        Err(number) => format!("by the rule of {name}: refused {number}\n"),
        Ok((vps, bits_used)) => {
            let bits: String = vps.vps_extension_data.iter().map(|bit| format!(" {bit}")).collect();
            format!("by the rule of {name}: accepted, bits used {bits_used}, bits{bits}\n")
        }
    }
}

fn by_rust(unit: &[u8]) -> String {
    match parse_vps(unit) {
        Err(error) => format!("refused: {error:?}\n"),
        Ok(vps) => {
            let written = match write_vps_nal(&vps) {
                Ok(bytes) => hex_of(&bytes),
                Err(error) => format!("refused: {error:?}"),
            };
            format!("accepted\nwritten: {written}\n{vps:#?}\n")
        }
    }
}
