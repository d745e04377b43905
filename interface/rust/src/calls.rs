//! The functions, with slices, results and refusals of Rust.
#![forbid(unsafe_code)]

use crate::archive::{self, Said};
use crate::kind::Kind;
use crate::refusal::Refusal;

/// An accepted unit.
#[derive(Clone, Copy, Debug, PartialEq, Eq)]
pub struct Parsed {
    /// The record's length, in numbers.
    pub length: usize,
    /// The RBSP's bits through the trailing bits.
    pub bits_used: u64,
}

/// Reads one unit, the bytes of a NAL unit without start code, into a record.
///
/// On success the record stands at the beginning of `record`, and the RBSP (the unit behind its 2-byte header with stuffing removed)
/// at the beginning of `work`; what is behind each is as before. Refusals 1 to 4 leave both as they were. Every other refusal leaves
/// `record` as it was and the RBSP at the beginning of `work`. Refusals 1 to 30, 34 and 35 can come out.
///
/// ```
/// use teglyovash::{parse, Refusal};
///
/// let unit = [0x00, 0x71, 0x10, 0x00, 0x00, 0x03, 0x02, 0x33, 0x00, 0x00, 0x40];
/// let mut work = [0xff; 10];
/// let mut record = [7; 40];
/// let parsed = parse(&unit, &mut work, &mut record).unwrap();
/// assert_eq!(parsed.length, 38);
/// assert_eq!(parsed.bits_used, 64);
/// assert_eq!(record[..3], [1, 1, 0]);
/// assert_eq!(record[37..], [38, 7, 7]);
/// assert_eq!(work, [0x10, 0x00, 0x00, 0x02, 0x33, 0x00, 0x00, 0x40, 0xff, 0xff]);
///
/// // a record buffer that is too short is left as it was, and the length that is needed is told
/// let mut short = [7; 37];
/// assert_eq!(parse(&unit, &mut work, &mut short), Err(Refusal::RecordTooShort { needed: 38 }));
/// assert_eq!(short, [7; 37]);
///
/// assert_eq!(parse(&unit, &mut [], &mut record), Err(Refusal::WorkTooShort));
/// assert_eq!(parse(&unit[..1], &mut work, &mut record), Err(Refusal::UnitTooShort));
/// assert_eq!(parse(&unit[..3], &mut work, &mut record), Err(Refusal::StopBitMissing));
///
/// // a set id of 0; past the unit's end a field of fixed width reads 0
/// assert_eq!(parse(&[0x00, 0x71, 0x0f], &mut work, &mut record), Err(Refusal::IdZero));
/// assert_eq!(parse(&unit[..2], &mut work, &mut record), Err(Refusal::IdZero));
///
/// // a code does not: two layers, and the end cuts the first code in its suffix, or leaves nothing of it
/// let cut = [0x00, 0x71, 0x10, 0x40, 0x00, 0x48, 0x00, 0x02, 0x33, 0x40, 0x00, 0x02];
/// assert_eq!(parse(&cut, &mut work, &mut record), Err(Refusal::CodePastEnd));
/// assert_eq!(parse(&cut[..11], &mut work, &mut record), Err(Refusal::CodePastEnd));
/// ```
pub fn parse(unit: &[u8], work: &mut [u8], record: &mut [u32]) -> Result<Parsed, Refusal> {
    let said = archive::parse(unit, work, record);
    match said.number {
        0 => Ok(Parsed { length: position(said.length), bits_used: said.bits_used }),
        number => Err(Refusal::of(number, position(said.length))),
    }
}

/// Writes a record as a unit, and gives the unit's length in bytes.
///
/// `record` is exactly the record, as long as [`parse`] said. On success the unit stands at the beginning of `output`; what is
/// behind it is as before. A refusal leaves `output` as it was. Refusals 31 and 32 can come out.
///
/// ```
/// use teglyovash::{parse, write, Refusal};
///
/// let unit = [0x00, 0x71, 0x10, 0x00, 0x00, 0x03, 0x02, 0x33, 0x00, 0x00, 0x40];
/// let mut record = [0; 38];
/// parse(&unit, &mut [0; 8], &mut record)?;
///
/// let mut output = [0xff; 12];
/// assert_eq!(write(&record, &mut output), Ok(11));
/// assert_eq!(output[..11], unit);
/// assert_eq!(output[11], 0xff);
///
/// let mut short = [0xff; 10];
/// assert_eq!(write(&record, &mut short), Err(Refusal::OutputTooShort));
/// assert_eq!(short, [0xff; 10]);
///
/// // the set id is never 0
/// record[1] = 0;
/// assert_eq!(write(&record, &mut output), Err(Refusal::NotWellFormed));
/// # Ok::<(), Refusal>(())
/// ```
pub fn write(record: &[u32], output: &mut [u8]) -> Result<usize, Refusal> {
    told_length(archive::write(record, output))
}

/// A section of a record: a part of `record` itself.
///
/// Of a record that is not well formed, one with set id 0 among them, and of a number over 8, it is the empty part at the record's
/// end.
///
/// ```
/// use teglyovash::{parse, section, Section};
///
/// let unit = [0x00, 0x71, 0x10, 0x00, 0x00, 0x03, 0x02, 0x33, 0x00, 0x00, 0x40];
/// let mut record = [0; 38];
/// parse(&unit, &mut [0; 8], &mut record)?;
/// assert_eq!(section(&record, Section::Layers), [0, 1, 0]);
/// assert_eq!(section(&record, Section::Trailer), [9, 12, 13, 24, 26, 28, 29, 38]);
/// assert_eq!(section(&record, 9u32), []);
/// assert_eq!(section(&record[1..], Section::Layers), []);
///
/// // the set id is never 0
/// record[1] = 0;
/// assert_eq!(section(&record, Section::Layers), []);
/// # Ok::<(), teglyovash::Refusal>(())
/// ```
pub fn section(record: &[u32], number: impl Into<u32>) -> &[u32] {
    let (start, count) = archive::section(record, number.into());
    &record[position(start)..][..position(count)]
}

/// Prints the layer page of a record, its output layer sets, a line each in set order, and gives the page's length in bytes.
///
/// A line has 72 bytes: the set's index, right-aligned in 3; a blank; how many layers the set has, right-aligned in 2; a blank; 64
/// places; and a line feed. Place i is `#` if layer i is in the set, `.` if it is not, and a blank from the number of layers on. A
/// set has its output layers and all that they reach through direct references, over any number of steps.
///
/// On success the page stands at the beginning of `output`; what is behind it is as before. [`crate::MOST_PAGE_BYTES`] are enough for
/// every page, and exactly as many bytes as it has. Refusals 31 and 32 can come out, 31 whatever the output's length, and leave
/// `output` as it was.
///
/// ```
/// use teglyovash::{layer_page, parse, Refusal};
///
/// let unit = [0x00, 0x71, 0x10, 0x00, 0x00, 0x03, 0x02, 0x33, 0x00, 0x00, 0x40];
/// let mut record = [0; 38];
/// parse(&unit, &mut [0; 8], &mut record)?;
///
/// let mut output = [0xff; 73];
/// assert_eq!(layer_page(&record, &mut output), Ok(72));
/// assert_eq!(output[..8], *b"  0  1 #");
/// assert_eq!(output[8..71], [b' '; 63]);
/// assert_eq!(output[71..], [b'\n', 0xff]);
///
/// let mut short = [0xff; 71];
/// assert_eq!(layer_page(&record, &mut short), Err(Refusal::OutputTooShort));
/// assert_eq!(short, [0xff; 71]);
///
/// // max_sublayers_minus1 is never 7
/// record[2] = 7;
/// assert_eq!(layer_page(&record, &mut short), Err(Refusal::NotWellFormed));
/// # Ok::<(), Refusal>(())
/// ```
pub fn layer_page(record: &[u32], output: &mut [u8]) -> Result<usize, Refusal> {
    told_length(archive::layer_page(record, output))
}

/// Tells the bit rate of a schedule, in bits a second: (rate field + 1) * 2^(6 + bit rate scale).
///
/// The schedule is named by its timing entry, its sublayer in that entry, its kind, and its place among those of its kind; each is
/// counted from 0, in the order of the record. An entry has the sublayers that are stored in it: sublayer 0 alone where the timing
/// section's sublayer flag is 0. Of a kind whose flag is 1 a sublayer has schedule count field + 1 schedules; of a kind whose flag
/// is 0, none.
///
/// A rate is at least 64, and at most (2^32 - 1) * 2^21 = 9,007,199,252,643,840. Refusals 31 and 33 can come out: 31 whatever is
/// asked for, and 33 if there is no timing section, or no such schedule in it. Each call checks the whole record, so its time is
/// linear in the record's length.
///
/// ```
/// use teglyovash::{bit_rate, parse, Kind, Refusal};
///
/// // one timing entry of one sublayer; its NAL schedules have the rate fields 3 and 4, and the scale is 0
/// let unit = include_bytes!("../../../samples/timing.vps");
/// let mut record = [0; 78];
/// parse(unit, &mut [0; 24], &mut record)?;
/// assert_eq!(bit_rate(&record, 0, 0, Kind::Nal, 0), Ok(256));
/// assert_eq!(bit_rate(&record, 0, 0, Kind::Nal, 1), Ok(320));
///
/// assert_eq!(bit_rate(&record, 0, 0, Kind::Nal, 2), Err(Refusal::ItemMissing));
/// assert_eq!(bit_rate(&record, 0, 0, Kind::Vcl, 0), Err(Refusal::ItemMissing));
/// assert_eq!(bit_rate(&record, 0, 1, Kind::Nal, 0), Err(Refusal::ItemMissing));
/// assert_eq!(bit_rate(&record, 1, 0, Kind::Nal, 0), Err(Refusal::ItemMissing));
///
/// // max_sublayers_minus1 is never 7
/// record[2] = 7;
/// assert_eq!(bit_rate(&record, 1, 0, Kind::Nal, 0), Err(Refusal::NotWellFormed));
/// # Ok::<(), Refusal>(())
/// ```
pub fn bit_rate(record: &[u32], entry: u32, sublayer: u32, kind: Kind, schedule: u32) -> Result<u64, Refusal> {
    told(archive::bit_rate(record, entry, sublayer, kind.into(), schedule))
}

/// Tells the buffer size of a schedule, in bits: (size field + 1) * 2^(4 + buffer size scale).
///
/// The schedule is named as for [`bit_rate`], with the same refusals. A size is at least 16, and at most
/// (2^32 - 1) * 2^19 = 2,251,799,813,160,960.
///
/// ```
/// use teglyovash::{buffer_size, parse, Kind, Refusal};
///
/// // the size fields are 4 and 4, and the scale is 0
/// let unit = include_bytes!("../../../samples/timing.vps");
/// let mut record = [0; 78];
/// parse(unit, &mut [0; 24], &mut record)?;
/// assert_eq!(buffer_size(&record, 0, 0, Kind::Nal, 1), Ok(80));
/// assert_eq!(buffer_size(&record, 0, 0, Kind::Nal, 2), Err(Refusal::ItemMissing));
///
/// // the section's buffer size scale, and the size field of schedule 1
/// record[52] = 3;
/// record[66] = 101;
/// assert_eq!(buffer_size(&record, 0, 0, Kind::Nal, 1), Ok(13_056));
/// # Ok::<(), Refusal>(())
/// ```
pub fn buffer_size(record: &[u32], entry: u32, sublayer: u32, kind: Kind, schedule: u32) -> Result<u64, Refusal> {
    told(archive::buffer_size(record, entry, sublayer, kind.into(), schedule))
}

/// Tells the picture interval of a sublayer, in whole microseconds, rounded down: (elemental field + 1) * units * 1,000,000 / scale.
/// Only a sublayer whose rate-within-CVS flag is 1 has one; for any other it is `None`, which is no refusal.
///
/// The sublayer is named as for [`bit_rate`], with the same refusals. An interval under a microsecond is 0, and none is over
/// 2,048 * (2^32 - 1) * 1,000,000 = 8,796,093,020,160,000,000, which fits `i64` too.
///
/// ```
/// use teglyovash::{parse, picture_interval, Refusal};
///
/// // 1,001 units, scale 60,000; the only sublayer's rate-within-CVS flag is 0
/// let unit = include_bytes!("../../../samples/timing.vps");
/// let mut record = [0; 78];
/// parse(unit, &mut [0; 24], &mut record)?;
/// assert_eq!(picture_interval(&record, 0, 0), Ok(None));
/// assert_eq!(picture_interval(&record, 0, 1), Err(Refusal::ItemMissing));
///
/// // the flag, and with it the elemental field
/// record[59] = 1;
/// record[60] = 1;
/// assert_eq!(picture_interval(&record, 0, 0), Ok(Some(33_366)));
/// # Ok::<(), Refusal>(())
/// ```
pub fn picture_interval(record: &[u32], entry: u32, sublayer: u32) -> Result<Option<u64>, Refusal> {
    let said = archive::picture_interval(record, entry, sublayer);
    match (said.number, said.known) {
        (0, 0) => Ok(None),
        (0, _) => Ok(Some(said.microseconds)),
        (number, _) => Err(Refusal::of(number, 0)),
    }
}

/// Removes stuffing from a NAL unit's payload, the bytes behind its header, and gives the RBSP's length.
///
/// On success the RBSP stands at the beginning of `output`; what is behind it is as before. As many bytes as `source` has are
/// always enough. Refusal 32 alone can come out, and leaves `output` as it was.
///
/// ```
/// use teglyovash::{ebsp_to_rbsp, Refusal};
///
/// let mut output = [0xff; 5];
/// assert_eq!(ebsp_to_rbsp(&[0, 0, 3, 0, 0, 3], &mut output), Ok(4));
/// assert_eq!(output, [0, 0, 0, 0, 0xff]);
/// assert_eq!(ebsp_to_rbsp(&[0, 0, 3, 0, 0, 3], &mut output[..3]), Err(Refusal::OutputTooShort));
/// ```
pub fn ebsp_to_rbsp(source: &[u8], output: &mut [u8]) -> Result<usize, Refusal> {
    told_length(archive::ebsp_to_rbsp(source, output))
}

/// Adds stuffing to an RBSP, and gives the payload's length.
///
/// On success the payload stands at the beginning of `output`; what is behind it is as before. Half as many bytes again as `source`
/// has are always enough. Refusal 32 alone can come out, and leaves `output` as it was.
///
/// ```
/// use teglyovash::{rbsp_to_ebsp, Refusal};
///
/// let mut output = [0xff; 7];
/// assert_eq!(rbsp_to_ebsp(&[0, 0, 0, 0], &mut output), Ok(6));
/// assert_eq!(output, [0, 0, 3, 0, 0, 3, 0xff]);
/// assert_eq!(rbsp_to_ebsp(&[0, 0, 0, 0], &mut output[..5]), Err(Refusal::OutputTooShort));
/// ```
pub fn rbsp_to_ebsp(source: &[u8], output: &mut [u8]) -> Result<usize, Refusal> {
    told_length(archive::rbsp_to_ebsp(source, output))
}

/// Stores the sentence of a refusal, given by its number, and gives the sentence's length in bytes.
///
/// A sentence is three words with a blank between them: place, field and fault. For 0 and every number that is not a refusal's it is
/// the empty one. On success it stands at the beginning of `output`; what is behind it is as before. Exactly as many bytes as it has
/// are enough, and [`crate::MOST_SENTENCE_BYTES`] always. Refusal 32 alone can come out, and leaves `output` as it was.
/// [`Refusal::from_sentence`] is the way back.
///
/// ```
/// use teglyovash::{sentence, Refusal};
///
/// let mut output = [0xff; 23];
/// assert_eq!(sentence(27, &mut output), Ok(20));
/// assert_eq!(output[..20], *b"end stop-bit missing");
/// assert_eq!(output[20..], [0xff; 3]);
///
/// let mut exact = [0xff; 20];
/// assert_eq!(sentence(27, &mut exact), Ok(20));
/// assert_eq!(exact, *b"end stop-bit missing");
///
/// let mut short = [0xff; 19];
/// assert_eq!(sentence(27, &mut short), Err(Refusal::OutputTooShort));
/// assert_eq!(short, [0xff; 19]);
///
/// // 0 and the greatest number are not refusals'
/// assert_eq!(sentence(0, &mut short), Ok(0));
/// assert_eq!(sentence(u32::MAX, &mut []), Ok(0));
/// assert_eq!(short, [0xff; 19]);
/// ```
pub fn sentence(number: u32, output: &mut [u8]) -> Result<usize, Refusal> {
    told_length(archive::sentence(number, output))
}

fn told(said: Said) -> Result<u64, Refusal> {
    match said.number {
        0 => Ok(said.stored),
        number => Err(Refusal::of(number, 0)),
    }
}

fn told_length(said: Said) -> Result<usize, Refusal> {
    told(said).map(position)
}

/// A length of something in memory, or the length that a record needs: at most [`crate::MOST_RECORD_NUMBERS`].
fn position(length: u64) -> usize {
    usize::try_from(length).expect("a length fits usize")
}
