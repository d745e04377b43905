// Sentences: vps_sentence and vps_sentence_number, held to each other. The Rust has neither.
use crate::buffers::Guarded;
use crate::calls;
use crate::report::{Answer, Report};
use judge::show::hex_of;

// An output of so many bytes is long enough for every sentence.
pub const MOST_SENTENCE: usize = 47;

const LENGTH_BEFORE: u64 = 0x0f1e_2d3c_4b5a_6978;

// The sentence of each refusal that the report has: with an output of every length, and back to the number.
pub fn compare_all(report: &mut Report) {
    let mut output = Guarded::new();
    for number in report.refusals() {
        report.input("sentence", "refusal that was met");
        let (mut bytes, mut length) = ([0; MOST_SENTENCE], 0);
        calls::sentence(number, &mut bytes, &mut length);
        let sentence = &bytes[..MOST_SENTENCE.min(length as usize)];
        (0..=MOST_SENTENCE).for_each(|room| stored(&mut output, number, sentence, room, report));
        given_back(number, sentence, report);
    }
}

fn stored(output: &mut Guarded<u8>, number: u32, sentence: &[u8], room: usize, report: &mut Report) {
    let (expected, length, bytes) = match room < sentence.len() {
        true => (32, LENGTH_BEFORE, &[][..]),
        false => (0, sentence.len() as u64, sentence),
    };
    let mut told = LENGTH_BEFORE;
    let answer = calls::sentence(number, output.lend(room, room as u32), &mut told);
    report.answer("vps_sentence", if expected == 0 { Answer::Success } else { Answer::Refused(expected) });
    if (answer, told) != (expected, length) || !output.holds(bytes) {
        report.difference(|| {
            format!(
                "vps_sentence of {number} with output {room}\nexpected number {expected}, length {length}, output {}\ngiven    number {answer}, length {told}, output {}",
                hex_of(bytes),
                hex_of(output.now())
            )
        });
    }
}

// The empty sentence gives 0, which is no refusal's: so no refusal has it, and no two have the same.
fn given_back(number: u32, sentence: &[u8], report: &mut Report) {
    let back = calls::sentence_number(sentence);
    report.answer("vps_sentence_number", Answer::Success);
    if back != number {
        report.difference(|| format!("vps_sentence_number of {}: expected {number}, given {back}", hex_of(sentence)));
    }
}
