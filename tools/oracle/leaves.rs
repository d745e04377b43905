// The Rust's answers on stuffing, reading bits and writing bits, as a list for crates/leaves_replay. Where our functions
// have a rule that the Rust has not, the expected answer is the Rust's with that rule applied; whether there are more data
// is answered by the rule of extension bits alone, and whether the end cuts a code by the rule of cut codes.
use crate::cut_rule::{CODE_PAST_END, cuts_code};
use crate::extension_rule::more_rbsp_data;
use crate::list::List;
use crate::random::Random;
use bitstream::BitstreamError;
use bitstream::bit_reader::BitReader;
use bitstream::bit_writer::BitWriter;
use bitstream::nal::{ebsp_to_rbsp, rbsp_to_ebsp};
use std::collections::BTreeMap;

// Numbers of refusals.
const CODE_TOO_LONG: u8 = 14;
const STOP_BIT_MISSING: u8 = 27;
const STOP_BIT_ZERO: u8 = 28;
const ALIGNMENT_BIT_ONE: u8 = 29;
const NOT_WELL_FORMED: u8 = 31;
const OUTPUT_TOO_SHORT: u8 = 32;

// Tags of the cases. A step's reading has the tag READ + step, its writing the tag WRITE + step.
const UNSTUFF: u8 = 1;
const RBSP_LENGTH: u8 = 2;
const STUFF: u8 = 3;
const BIT_AT: u8 = 4;
const FIELD_AT: u8 = 5;
const BYTE_ALIGNED: u8 = 6;
const MORE_RBSP_DATA: u8 = 7;
const READ: u8 = 10;
const WRITE: u8 = 20;
const CHAIN: u8 = 30;

// Steps of the reader and of the writer.
const BIT: u8 = 1;
const FIELD: u8 = 2;
const CODE: u8 = 3;
const ALIGNMENT: u8 = 4;
const TRAILING: u8 = 5;

// Places from here on are refused.
const PLACE_LIMIT: u64 = 1 << 63;

pub fn list() -> List {
    made().list
}

// How many answers of the question for more data are the Rust's too, the rule's alone, and 31; and how many codes are read
// as the Rust reads them or refuses them, how many are cut, and how many are 31.
pub fn judges() -> String {
    let Leaves { asked_for_more: [both, rule, refused], codes_read, .. } = made();
    let codes = |number: u8| codes_read.get(&number).copied().unwrap_or(0);
    let [read, too_long, cut, limit] = [0, CODE_TOO_LONG, CODE_PAST_END as u8, NOT_WELL_FORMED].map(codes);
    format!(
        "more_rbsp_data: the Rust's and the rule's {both}, the rule's alone {rule}, 31 {refused}
read_code: the Rust's value {read}, the Rust's refusal, 14, {too_long}, the rule's, 35, {cut}, 31 {limit}\n"
    )
}

fn made() -> Leaves {
    let random = Random::new(0x4832_3636);
    let mut leaves = Leaves { list: List::new(4_096), random, asked_for_more: [0; 3], codes_read: BTreeMap::new() };
    leaves.stuffing();
    leaves.peeking();
    leaves.reading();
    leaves.writing();
    leaves.chains();
    leaves
}

// ── What is expected ────────────────────────────────────────────────────

// What a step says: a refusal's number or 0, the value read, and the place behind.
struct Answer {
    number: u8,
    value: u32,
    next: u64,
}

impl Answer {
    fn refused(number: u8) -> Self {
        Self { number, value: 0, next: 0 }
    }
}

fn reader_at(bytes: &[u8], at: u64) -> BitReader<'_> {
    let mut reader = BitReader::new(bytes);
    reader.skip(at as usize);
    reader
}

// A step of the reader: the Rust's answer, but 31 for a place from 2^63 on and for a width over 32, and 35 for a code that
// the end cuts.
fn read(step: u8, bytes: &[u8], at: u64, width: u32) -> Answer {
    if at >= PLACE_LIMIT || (step == FIELD && width > 32) {
        return Answer::refused(NOT_WELL_FORMED);
    }
    if step == CODE && cuts_code(bytes, at) {
        return Answer::refused(CODE_PAST_END as u8);
    }
    let mut reader = reader_at(bytes, at);
    let value = match step {
        BIT => Ok(reader.read_bit()),
        FIELD => Ok(reader.u(width)),
        CODE => reader.ue(),
        ALIGNMENT => {
            reader.align_to_byte();
            Ok(0)
        }
        _ => reader.read_rbsp_trailing_bits().map(|()| 0),
    };
    match value {
        Ok(value) => Answer { number: 0, value, next: reader.bit_pos() as u64 },
        Err(error) => Answer::refused(number_of(&error)),
    }
}

fn number_of(error: &BitstreamError) -> u8 {
    let text = format!("{error:?}");
    let numbers = [
        ("ue(v): 32 or more leading zero bits", CODE_TOO_LONG),
        ("no bits left for stop bit", STOP_BIT_MISSING),
        ("rbsp_stop_one_bit was 0", STOP_BIT_ZERO),
        ("alignment_zero_bit was 1", ALIGNMENT_BIT_ONE),
        ("no representable ue(v) code", NOT_WELL_FORMED),
    ];
    numbers.iter().find(|(words, _)| text.contains(words)).expect("an error that is known").1
}

fn bit_of(bytes: &[u8], at: u64) -> u8 {
    bytes.get((at / 8) as usize).map_or(0, |byte| byte >> (7 - at % 8) & 1)
}

// A step of the writer on a buffer, which it changes: the Rust gives the bits. The rules added are 31 for a place
// from 2^63 on, a width over 32 and a value wider than its field; 32 without room; and no other bit is touched.
fn write(step: u8, out: &mut [u8], at: u64, width: u32, value: u32) -> Answer {
    let too_wide = match step {
        BIT => value > 1,
        FIELD => width > 32 || u64::from(value) >> width > 0,
        _ => false,
    };
    if at >= PLACE_LIMIT || too_wide {
        return Answer::refused(NOT_WELL_FORMED);
    }
    // The Rust's writer begins at 0 and is brought to the place by other bits. Far from the buffer only the place
    // within its byte matters, since nothing is written there.
    let room = 8 * out.len() as u64;
    let start = if at <= room { at } else { at % 8 };
    let mut writer = BitWriter::new();
    for i in 0..start {
        writer.write_bit(u32::from(bit_of(out, i)));
    }
    let done = match step {
        BIT => Ok(writer.write_bit(value)),
        FIELD => Ok(writer.write_bits(value, width)),
        CODE => writer.write_ue(value),
        ALIGNMENT => Ok(writer.align_to_byte()),
        _ => Ok(writer.write_rbsp_trailing_bits()),
    };
    if let Err(error) = done {
        return Answer::refused(number_of(&error));
    }
    let bits = writer.bit_pos() as u64 - start;
    if bits > 0 && at + bits > room {
        return Answer::refused(OUTPUT_TOO_SHORT);
    }
    let written = writer.finish();
    for i in at..at + bits {
        let weight = 1 << (7 - i % 8);
        let byte = &mut out[(i / 8) as usize];
        *byte = if bit_of(&written, i) == 1 { *byte | weight } else { *byte & !weight };
    }
    Answer { number: 0, value, next: at + bits }
}

// What the replay program fills an output of stuffing with beforehand.
fn filled(length: usize) -> Vec<u8> {
    (0..length).map(|i| (255 - i % 256) as u8).collect()
}

fn bytes_for(bits: u64) -> usize {
    bits.div_ceil(8) as usize
}

// ── The cases ───────────────────────────────────────────────────────────

struct Leaves {
    list: List,
    random: Random,
    // answers that are the Rust's and the rule's, the rule's alone, and 31
    asked_for_more: [usize; 3],
    // by number
    codes_read: BTreeMap<u8, usize>,
}

// Every string of a length over some bytes.
fn strings(alphabet: &[u8], length: u32) -> Vec<Vec<u8>> {
    let letters = alphabet.len();
    (0..letters.pow(length)).map(|n| (0..length).map(|i| alphabet[n / letters.pow(i) % letters]).collect()).collect()
}

impl Leaves {
    // ── Stuffing ──

    fn stuffing(&mut self) {
        let bytes = [0, 1, 2, 3, 4];
        let short: Vec<Vec<u8>> = (0..=4).flat_map(|n| strings(&bytes, n)).collect();
        let mut in_turn = strings(&bytes, 5);
        in_turn.extend((6..=8).flat_map(|n| strings(&[0, 3], n)));
        let mut long: Vec<Vec<u8>> = (0..24).map(|n| self.random.bytes_rich_in_zeros(6 + n)).collect();
        long.extend((1..=12).map(|n| self.random.bytes_rich_in_zeros(32 * n + n)));
        long.extend([vec![0; 200], vec![0; 201], vec![3; 100], [0, 0, 3].repeat(60), [0, 0, 3, 0].repeat(40)]);

        let rooms = [Room::Exact, Room::Short, Room::More];
        for (tag, name) in [(UNSTUFF, "unstuff"), (STUFF, "stuff")] {
            for input in short.iter().chain(&long) {
                for room in rooms {
                    self.stuffing_case(tag, input, room);
                }
            }
            for (i, input) in in_turn.iter().enumerate() {
                self.stuffing_case(tag, input, rooms[i % 3]);
            }
            self.list.end_of_kind(name);
        }

        for input in short.iter().chain(&long) {
            let mut content = (ebsp_to_rbsp(input).len() as u16).to_be_bytes().to_vec();
            content.extend(input);
            self.list.case(RBSP_LENGTH, &content);
        }
        self.list.end_of_kind("rbsp_length");
    }

    // Number, bytes written, length of the input, the input, the whole output afterwards.
    fn stuffing_case(&mut self, tag: u8, input: &[u8], room: Room) {
        let made = if tag == UNSTUFF { ebsp_to_rbsp(input) } else { rbsp_to_ebsp(input) };
        let room = match room {
            Room::Exact => made.len(),
            Room::More => made.len() + 1 + self.random.below(9),
            Room::Short if made.is_empty() => return,
            Room::Short => made.len() - 1,
        };
        let mut output = filled(room);
        let mut content = Vec::new();
        if made.len() <= room {
            output[..made.len()].copy_from_slice(&made);
            content.push(0);
            content.extend((made.len() as u16).to_be_bytes());
        } else {
            content.extend([OUTPUT_TOO_SHORT, 0, 0]);
        }
        content.extend((input.len() as u16).to_be_bytes());
        content.extend(input);
        content.extend(output);
        self.list.case(tag, &content);
    }

    // ── Reading ──

    // Place, width, number, value, place behind, and the bytes.
    fn bits_case(&mut self, tag: u8, at: u64, width: u32, answer: &Answer, bytes: &[u8]) {
        let mut content = at.to_be_bytes().to_vec();
        content.extend(width.to_be_bytes());
        content.push(answer.number);
        content.extend(answer.value.to_be_bytes());
        content.extend(answer.next.to_be_bytes());
        content.extend(bytes);
        self.list.case(tag, &content);
    }

    fn read_case(&mut self, step: u8, bytes: &[u8], at: u64, width: u32) {
        let answer = read(step, bytes, at, width);
        if step == CODE {
            *self.codes_read.entry(answer.number).or_default() += 1;
        }
        self.bits_case(READ + step, at, width, &answer, bytes);
    }

    // The two functions that know no refusal, and the two questions.
    fn peeking(&mut self) {
        for length in 0..=3 {
            let bytes = self.random.bytes(length);
            for at in (0..8 * length as u64 + 9).chain([PLACE_LIMIT - 1, PLACE_LIMIT, u64::MAX]) {
                let value = reader_at(&bytes, at).peek_bits(1);
                self.bits_case(BIT_AT, at, 1, &Answer { number: 0, value, next: 0 }, &bytes);
            }
        }
        self.list.end_of_kind("bit_at");

        for width in 0..=34 {
            for at in 0..8 {
                let length = self.random_end(at, width);
                let bytes = self.random.bytes(length);
                self.field_at_case(&bytes, at, width);
            }
        }
        for (at, width) in
            [(PLACE_LIMIT - 1, 32), (PLACE_LIMIT, 32), (u64::MAX - 32, 32), (u64::MAX, 1), (3, 64), (3, u32::MAX)]
        {
            let bytes = self.random.bytes(6);
            self.field_at_case(&bytes, at, width);
        }
        self.list.end_of_kind("field_at");

        for at in (0..=40).chain(self.far_places()) {
            let answer = self.asked(at, reader_at(&[], at).byte_aligned());
            self.bits_case(BYTE_ALIGNED, at, 0, &answer, &[]);
        }
        self.list.end_of_kind("byte_aligned");

        self.more_rbsp_data();
    }

    // The Rust's peeking takes up to 32 bits; our function takes any greater width for 32.
    fn field_at_case(&mut self, bytes: &[u8], at: u64, width: u32) {
        let value = reader_at(bytes, at).peek_bits(width.min(32));
        self.bits_case(FIELD_AT, at, width, &Answer { number: 0, value, next: 0 }, bytes);
    }

    fn more_rbsp_data(&mut self) {
        // two bytes with one or two ones, from places before, at and behind each
        for low in 0..16u64 {
            for high in low..16 {
                let mut bytes = [0u8; 2];
                for i in [low, high] {
                    bytes[(i / 8) as usize] |= 1 << (7 - i % 8);
                }
                let mut places = vec![0, low, low + 1, high, high + 1];
                places.dedup();
                for at in places {
                    self.more_case(&bytes, at);
                }
            }
        }
        for length in 0..=4 {
            for at in 0..8 * length as u64 + 2 {
                self.more_case(&vec![0; length], at);
                self.more_case(&vec![255; length], at);
            }
        }
        for _ in 0..60 {
            let length = 1 + self.random.below(20);
            let mut bytes = vec![0; length];
            for _ in 0..self.random.below(4) {
                bytes[self.random.below(length)] |= 1 << self.random.below(8);
            }
            let at = self.random.below(8 * length) as u64;
            self.more_case(&bytes, at);
        }
        for at in self.far_places() {
            self.more_case(&[255; 3], at);
        }
        self.list.end_of_kind("more_rbsp_data");
    }

    fn more_case(&mut self, bytes: &[u8], at: u64) {
        let more = more_rbsp_data(bytes, at);
        let answer = self.asked(at, more);
        let judged_by = match reader_at(bytes, at).more_rbsp_data() {
            _ if answer.number == NOT_WELL_FORMED => 2,
            by_rust => usize::from(by_rust != more),
        };
        self.asked_for_more[judged_by] += 1;
        self.bits_case(MORE_RBSP_DATA, at, 0, &answer, bytes);
    }

    // Yes or no, but 31 from 2^63 on.
    fn asked(&self, at: u64, yes: bool) -> Answer {
        if at >= PLACE_LIMIT {
            Answer::refused(NOT_WELL_FORMED)
        } else {
            Answer { number: 0, value: u32::from(yes), next: 0 }
        }
    }

    fn far_places(&self) -> [u64; 7] {
        [PLACE_LIMIT - 9, PLACE_LIMIT - 8, PLACE_LIMIT - 1, PLACE_LIMIT, PLACE_LIMIT + 1, PLACE_LIMIT + 8, u64::MAX]
    }

    // A number of bytes from none to one more than a field needs.
    fn random_end(&mut self, at: u64, width: u32) -> usize {
        self.random.below(bytes_for(at + u64::from(width)) + 2)
    }

    fn reading(&mut self) {
        for length in 0..=2 {
            for bytes in [vec![0xa5; length], vec![0x5a; length]] {
                for at in 0..8 * length as u64 + 3 {
                    self.read_case(BIT, &bytes, at, 1);
                }
            }
        }
        for at in self.far_places() {
            self.read_case(BIT, &[255], at, 1);
        }
        self.list.end_of_kind("read_bit");

        self.read_fields();
        self.read_codes();

        for at in (0..=24).chain(self.far_places()) {
            let bytes = self.random.bytes(2);
            self.read_case(ALIGNMENT, &bytes, at, 0);
        }
        self.list.end_of_kind("read_alignment");

        self.read_trailing();
    }

    // Every width at every place of a byte, with the end behind, at and before the field's end.
    fn read_fields(&mut self) {
        for width in 0..=32 {
            for place in 0..8 {
                let at = place + 8 * self.random.below(3) as u64;
                let end = at + u64::from(width);
                let enough = bytes_for(end);
                let more = enough + 1 + self.random.below(6);
                for length in [more, enough, enough.saturating_sub(1)] {
                    let bytes = self.random.bytes(length);
                    self.read_case(FIELD, &bytes, at, width);
                }
                self.read_case(FIELD, &vec![255; (end / 8) as usize], at, width);
            }
        }
        for width in [0, 1, 32] {
            self.read_case(FIELD, &[], 0, width);
            self.read_case(FIELD, &[255; 2], 100, width);
            for at in self.far_places() {
                self.read_case(FIELD, &[255; 2], at, width);
            }
        }
        for width in [33, 40, 64, u32::MAX] {
            self.read_case(FIELD, &[255; 8], 0, width);
            self.read_case(FIELD, &[], PLACE_LIMIT, width);
        }
        self.list.end_of_kind("read_field");
    }

    fn read_codes(&mut self) {
        // every number of zeros at every place of a byte, cut behind each byte
        for zeros in 0..32u64 {
            for at in 0..8u64 {
                let whole = self.code_bits(at, zeros, None);
                for length in 0..=whole.len() {
                    self.read_case(CODE, &whole[..length], at, 0);
                }
                for suffix in [false, true] {
                    let bytes = self.code_bits(at, zeros, Some(suffix));
                    self.read_case(CODE, &bytes, at, 0);
                }
            }
        }
        (0..=40).for_each(|zeros| self.read_zeros(zeros));
        for zeros in [31, 32, 33] {
            for at in 0..8 {
                let mut bytes = self.code_bits(at, zeros, Some(true));
                bytes.extend([255; 2]);
                self.read_case(CODE, &bytes, at, 0);
            }
        }
        for at in [0, 1, 7, 8, 100] {
            self.read_case(CODE, &[], at, 0);
            self.read_case(CODE, &[0], at, 0);
        }
        self.read_ends();
        for at in self.far_places() {
            self.read_case(CODE, &[255], at, 0);
            self.read_case(CODE, &[0; 9], at, 0);
        }
        for _ in 0..100 {
            let length = self.random.below(12);
            let bytes = self.random.bytes_rich_in_zeros(length);
            let at = self.random.below(8 * length + 3) as u64;
            self.read_case(CODE, &bytes, at, 0);
        }
        self.list.end_of_kind("read_code");
    }

    // So many zeros, then the end or a one.
    fn read_zeros(&mut self, zeros: u64) {
        let length = bytes_for(zeros) + 1;
        let mut bytes = vec![255; length];
        let at = 8 * length as u64 - zeros;
        for i in at..8 * length as u64 {
            bytes[(i / 8) as usize] &= !(1 << (7 - i % 8));
        }
        self.read_case(CODE, &bytes, at, 0);
        bytes.extend([255; 5]);
        self.read_case(CODE, &bytes, at, 0);
    }

    // Zeros alone from each place of a byte to the end, 31 and 32 among them; the end, and places behind it.
    fn read_ends(&mut self) {
        let zeros = (0..8).flat_map(|at| (1..=6).map(move |length| (at, vec![0; length])));
        let from_end = |length| (8 * length..=8 * length + 9).map(move |at| (at as u64, vec![255; length]));
        for (at, bytes) in zeros.chain((1..=5).flat_map(from_end)) {
            self.read_case(CODE, &bytes, at, 0);
        }
    }

    // Bytes with a code of so many zeros at a place, behind ones; the suffix all zeros, all ones or of random bits.
    fn code_bits(&mut self, at: u64, zeros: u64, suffix: Option<bool>) -> Vec<u8> {
        let mut writer = BitWriter::new();
        for _ in 0..at {
            writer.write_bit(1);
        }
        for _ in 0..zeros {
            writer.write_bit(0);
        }
        writer.write_bit(1);
        for _ in 0..zeros {
            let bit = suffix.map_or(self.random.below(2) as u32, u32::from);
            writer.write_bit(bit);
        }
        writer.finish()
    }

    fn read_trailing(&mut self) {
        // all that the begun byte can hold from a place on
        for at in 0..8u64 {
            for rest in 0..1u16 << (8 - at) {
                let before = if at == 0 { 0 } else { (self.random.number() as u16) << (8 - at) };
                self.read_case(TRAILING, &[(before | rest) as u8], at, 0);
            }
        }
        for length in 0..=2 {
            for at in 8 * length as u64..8 * length as u64 + 3 {
                self.read_case(TRAILING, &vec![255; length], at, 0);
            }
        }
        for at in 8..16 {
            self.read_case(TRAILING, &[255, 1 << (15 - at), 255], at, 0);
        }
        for at in self.far_places() {
            self.read_case(TRAILING, &[128; 2], at, 0);
        }
        self.list.end_of_kind("read_trailing_bits");
    }

    // ── Writing ──

    // Place, width, number, value, place behind, the buffer before, the buffer afterwards.
    fn write_case(&mut self, step: u8, before: &[u8], at: u64, width: u32, value: u32) {
        let mut after = before.to_vec();
        let answer = write(step, &mut after, at, width, value);
        let answer = Answer { value, ..answer };
        self.bits_case(WRITE + step, at, width, &answer, &[before, &after].concat());
    }

    // A step that takes so many bits: into zeros with just enough room, then into other bytes with more room, just
    // enough and a byte less.
    fn write_cases(&mut self, step: u8, at: u64, bits: u64, width: u32, value: u32) {
        let enough = bytes_for(at + bits);
        self.write_case(step, &vec![0; enough], at, width, value);
        for length in [enough + 1, enough, enough.saturating_sub(1)] {
            let before = self.random.bytes(length);
            self.write_case(step, &before, at, width, value);
        }
    }

    fn writing(&mut self) {
        for at in 0..20 {
            for value in [0, 1] {
                self.write_cases(BIT, at, 1, 1, value);
            }
        }
        for value in [2, 3, 255, u32::MAX] {
            self.write_case(BIT, &[0; 2], 3, 1, value);
            self.write_case(BIT, &[], 0, 1, value);
        }
        for at in self.far_places() {
            self.write_case(BIT, &[0; 2], at, 1, 1);
        }
        self.list.end_of_kind("write_bit");

        self.write_fields();
        self.write_codes();

        for at in 0..=24 {
            self.write_cases(ALIGNMENT, at, at.next_multiple_of(8) - at, 0, 0);
            self.write_case(ALIGNMENT, &[255; 4], at, 0, 0);
        }
        for at in self.far_places() {
            self.write_case(ALIGNMENT, &[255; 2], at, 0, 0);
        }
        self.list.end_of_kind("write_alignment");

        for at in 0..=24u64 {
            self.write_cases(TRAILING, at, (at + 1).next_multiple_of(8) - at, 0, 0);
            self.write_case(TRAILING, &[255; 4], at, 0, 0);
        }
        for at in self.far_places() {
            self.write_case(TRAILING, &[255; 2], at, 0, 0);
        }
        self.list.end_of_kind("write_trailing_bits");
    }

    fn write_fields(&mut self) {
        for width in 0..=32u32 {
            let ones = ((1u64 << width) - 1) as u32;
            for place in 0..8 {
                let at = place + 8 * self.random.below(3) as u64;
                let value = match place {
                    0 | 4 => ones,
                    2 => 0,
                    _ => self.random.of_width(width),
                };
                self.write_cases(FIELD, at, u64::from(width), width, value);
            }
            if width < 32 {
                self.write_case(FIELD, &[0; 8], 5, width, ones + 1);
                self.write_case(FIELD, &[], 5, width, u32::MAX);
            }
        }
        for width in [33, 34, 64, u32::MAX] {
            self.write_case(FIELD, &[0; 8], 0, width, 0);
            self.write_case(FIELD, &[], 0, width, 1);
        }
        for width in [0, 1, 32] {
            self.write_case(FIELD, &[], 0, width, 0);
            self.write_case(FIELD, &[170; 2], 16, width, 0);
            self.write_case(FIELD, &[170; 2], 23, width, 0);
            for at in self.far_places() {
                self.write_case(FIELD, &[170; 2], at, width, 0);
            }
        }
        self.list.end_of_kind("write_bits");
    }

    fn write_codes(&mut self) {
        for power in 0..=32u64 {
            for value in [(1u64 << power).saturating_sub(2), (1 << power) - 1, 1 << power] {
                let Ok(value) = u32::try_from(value) else { continue };
                if value == u32::MAX {
                    self.write_case(CODE, &[0; 12], 3, 0, value);
                    self.write_case(CODE, &[], 0, 0, value);
                    continue;
                }
                let mut alone = BitWriter::new();
                alone.write_ue(value).expect("a value that has a code");
                let bits = alone.bit_pos() as u64;
                for place in [power, power + 3] {
                    let at = place % 8 + 8 * self.random.below(3) as u64;
                    self.write_cases(CODE, at, bits, 0, value);
                }
            }
        }
        for at in self.far_places() {
            self.write_case(CODE, &[170; 2], at, 0, 0);
            self.write_case(CODE, &[170; 2], at, 0, u32::MAX);
        }
        self.list.end_of_kind("write_ue");
    }

    // ── Chains ──

    fn chains(&mut self) {
        for _ in 0..300 {
            self.chain();
        }
        self.list.end_of_kind("chain");
    }

    // Steps written one behind the other into a buffer, to be read again: how many steps, each step, the buffer
    // before, the buffer afterwards. A step is its number, width, value, refusal's number and place behind; a refused
    // step leaves the place and is not read.
    fn chain(&mut self) {
        let count = 1 + self.random.below(16);
        let length = self.random.below(1 + 4 * count);
        let before = if self.random.below(3) == 0 { vec![0; length] } else { self.random.bytes(length) };
        let mut after = before.clone();
        let mut at = 0;
        let mut steps = Vec::new();
        let mut content = (count as u16).to_be_bytes().to_vec();
        for _ in 0..count {
            let (step, width, value) = self.step();
            let answer = write(step, &mut after, at, width, value);
            if answer.number == 0 {
                steps.push((step, width, value, at, answer.next));
                at = answer.next;
            }
            content.extend([step, width as u8]);
            content.extend(value.to_be_bytes());
            content.push(answer.number);
            content.extend((at as u16).to_be_bytes());
        }
        for (step, width, value, at, next) in steps {
            let answer = read(step, &after, at, width);
            assert_eq!((answer.number, answer.value, answer.next), (0, value, next), "the Rust reads what it wrote");
        }
        content.extend(before);
        content.extend(after);
        self.list.case(CHAIN, &content);
    }

    // A step with its width and value; now and then one that is to be refused.
    fn step(&mut self) -> (u8, u32, u32) {
        match self.random.below(16) {
            0 | 1 => (BIT, 1, self.random.below(2) as u32),
            2..=7 => {
                let width = self.random.below(33) as u32;
                (FIELD, width, self.random.of_width(width))
            }
            8..=11 => {
                let width = self.random.below(33) as u32;
                (CODE, 0, self.random.of_width(width).min(u32::MAX - 1))
            }
            12 => (ALIGNMENT, 0, 0),
            13 => (TRAILING, 0, 0),
            14 => (FIELD, 5, 32),
            _ => [(BIT, 1, 2), (FIELD, 33, 0), (CODE, 0, u32::MAX)][self.random.below(3)],
        }
    }
}

#[derive(Clone, Copy)]
enum Room {
    Exact,
    Short,
    More,
}
