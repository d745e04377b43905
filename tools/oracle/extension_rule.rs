// The second judge, for extension bits. H.266 7.2 has them go up to the last one-bit of the RBSP, which is the stop bit.
// The Rust reads them while two one-bits remain and refuses a 0 where it stops with 28, and it writes none that end in 0.
// Here the rule is written out over the Rust's own structures; all else, before the bits and behind them, is the Rust's.
use crate::draft::unit_of_rbsp;
use crate::refusal::number_of;
use bitstream::BitstreamError;
use bitstream::bit_reader::BitReader;
use bitstream::h266::{VvcVps, parse_vps, write_vps, write_vps_nal};
use bitstream::nal::{ebsp_to_rbsp, rbsp_to_ebsp};

// ── The rule ────────────────────────────────────────────────────────────

// Whether a one-bit stands behind a place's bit.
pub fn more_rbsp_data(bytes: &[u8], place: u64) -> bool {
    last_one(bytes).is_some_and(|last| place < last)
}

fn last_one(bytes: &[u8]) -> Option<u64> {
    let byte = bytes.iter().rposition(|&byte| byte != 0)?;
    Some(8 * byte as u64 + 7 - u64::from(bytes[byte].trailing_zeros()))
}

// The bits from a place on, as long as there are more data.
fn extension_from(rbsp: &[u8], place: usize) -> Vec<u8> {
    let last = last_one(rbsp).map_or(0, |last| last as usize);
    (place..last).map(|bit| rbsp[bit / 8] >> (7 - bit % 8) & 1).collect()
}

pub fn ends_in_zero(v: &VvcVps) -> bool {
    v.vps_extension_data.last() == Some(&0)
}

// ── Reading ─────────────────────────────────────────────────────────────

// What a judge says of a unit: the structure and the bits used, or a refusal's number.
pub type Found = Result<(VvcVps, usize), u32>;

pub const STOP_BIT_MISSING: u32 = 27;
pub const STOP_BIT_ZERO: u32 = 28;

pub fn found_by_rust(unit: &[u8]) -> Found {
    let vps = parse_vps(unit).map_err(|error| number_of(&error))?;
    // The Rust doesn't say where its reading ended. An accepted unit has every field and code whole, each field and code
    // has one length, and so have the alignments: the fields written again end where the reading did.
    let rbsp = write_vps(&vps).expect("what was read can be written");
    Ok((vps, 8 * rbsp.len()))
}

// The rule's answer, for a unit that is read up to an extension flag of 1; of other units the rule says nothing.
pub fn found_by_rule(unit: &[u8]) -> Option<Found> {
    let rbsp = ebsp_to_rbsp(unit.get(2..)?);
    let (mut vps, end) = table_of(&unit[..2], &rbsp)?;
    vps.vps_extension_data = extension_from(&rbsp, end);
    let mut reader = BitReader::new(&rbsp);
    reader.skip(end + vps.vps_extension_data.len());
    Some(match reader.read_rbsp_trailing_bits() {
        Ok(()) => Ok((vps, reader.bit_pos())),
        Err(error) => Err(number_of(&error)),
    })
}

// So many bytes of an RBSP are tried first.
const FIRST_TRIED: usize = 64;

// What the Rust reads up to the extension flag, and the place behind the flag, if the flag is 1.
//
// The Rust is given the first bytes with FF 80 behind them. If it reads eight extension bits or more, the bits from the
// flag up to the one of 80 are all extension bits, and at least the FF is among them: so the flag stands in those bytes,
// and all before it, and the Rust reads the same from the whole RBSP. With all bytes this is so if the flag is 1 at all,
// since beyond its bytes the Rust reads zeros. Few bytes are tried before more, for the Rust takes long over many zeros.
fn table_of(header: &[u8], rbsp: &[u8]) -> Option<(VvcVps, usize)> {
    let mut count = rbsp.len().min(FIRST_TRIED);
    loop {
        let tried = [&rbsp[..count], &[0xff, 0x80]].concat();
        if let Ok(mut vps) = parse_vps(&[header, &rbsp_to_ebsp(&tried)].concat()) {
            let bits = std::mem::take(&mut vps.vps_extension_data).len();
            if bits >= 8 {
                return Some((vps, 8 * count + 8 - bits));
            }
        }
        if count == rbsp.len() {
            return None;
        }
        count = rbsp.len().min(count + count / 4 + 1);
    }
}

// ── Writing ─────────────────────────────────────────────────────────────

// The RBSP that the Rust writes, or that the rule asks for where the extension ends in 0.
pub fn write_rbsp(v: &VvcVps) -> Result<Vec<u8>, BitstreamError> {
    if ends_in_zero(v) { write_rbsp_by_rule(v) } else { write_vps(v) }
}

pub fn write_unit(v: &VvcVps) -> Result<Vec<u8>, BitstreamError> {
    if ends_in_zero(v) { Ok(unit_of_rbsp(&write_rbsp_by_rule(v)?)) } else { write_vps_nal(v) }
}

// The Rust writes the bits with a 1 behind them, and then its stop bit. Without the latter the 1 is the stop bit.
fn write_rbsp_by_rule(v: &VvcVps) -> Result<Vec<u8>, BitstreamError> {
    let mut longer = v.clone();
    longer.vps_extension_data.push(1);
    let mut rbsp = write_vps(&longer)?;
    let last = rbsp.pop().expect("the stop bit is written");
    let without = last & (last - 1);
    if without != 0 {
        rbsp.push(without);
    }
    Ok(rbsp)
}
