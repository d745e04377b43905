// Times the static archive beside the Rust: the same units, one driver, batches in turn, medians over many rounds.
use archive::calls;
use archive::cases::{by_sets, cases, growth, long_extensions, with_entries, Case};
use archive::sentences::MOST_SENTENCE;
use bitstream::h266::{parse_vps, write_vps_nal};
use bitstream::nal::{ebsp_to_rbsp, rbsp_to_ebsp};
use judge::extension_rule::found_by_rule;
use judge::figures::{bit_rate, buffer_size, picture_interval, schedules, Item};
use judge::page::{Page, LINE_BYTES};
use judge::record::{record_of, Reading};
use judge::show::unit_of;
use std::hint::black_box;
use std::process::ExitCode;

// A batch takes about so many nanoseconds, and there are so many of each side.
const BATCH: u64 = 1_000_000;
const ROUNDS: usize = 201;

// Of two calls that take turns no round begins once they have taken so many nanoseconds: slow ones have fewer rounds.
const MOST_TURNS: u64 = 20_000_000_000;

fn main() -> ExitCode {
    let words: Vec<String> = std::env::args().skip(1).collect();
    match &words[..] {
        [] => beside_the_rust(),
        [word] if word == "sentences" => return sentences(),
        [word] if word == "page" => return pages(),
        [word] if word == "extension" => return extensions(),
        [word] if word == "figures" => return figures(),
        [side, call, name, count] => repeat(side, call, name, count.parse().expect("a number")),
        _ => return ExitCode::from(2),
    }
    ExitCode::SUCCESS
}

fn beside_the_rust() {
    println!("Nanoseconds of processor time a call, medians of {ROUNDS} rounds in which the two sides take turns. The ratio is the Rust's time");
    println!(
        "to ours: above 1, ours is faster. Ours works in the caller's buffers, which are used again and not cleared;"
    );
    println!("the Rust allocates what it gives, and freeing that is in its time.\n");
    println!("| Call | Unit | Bytes | The Rust, ns | Ours, ns | Ratio |\n|---|---|---|---|---|---|");
    let cases = cases();
    for case in &cases {
        row("read", &case.name, case.unit.len(), &reading(case));
    }
    let cut = &cases[1].unit[..cases[1].unit.len() - 4];
    row("read", "three layers, cut: refused", cut.len(), &reading_unit(cut));
    for case in &cases {
        row("write", &case.name, case.unit.len(), &writing(case));
    }
    for (name, bytes) in byte_strings() {
        row("remove stuffing", name, bytes.len(), &removing(&bytes));
        row("add stuffing", name, bytes.len(), &adding(&bytes));
    }
    println!("\nGrowth: nanoseconds a byte of the unit.\n");
    println!("| Unit | Bytes | Read: the Rust | ours | Ratio | Write: the Rust | ours | Ratio |\n|---|---|---|---|---|---|---|---|");
    for case in growth() {
        growth_row(&case);
    }
}

// ── Sentences, which the Rust has not ───────────────────────────────────

// Bytes that begin with a sentence, up to so many: none may take more than three times as long as the fewest.
const HOSTILE: [usize; 5] = [24, 1 << 10, 1 << 16, 1 << 20, 1 << 24];

fn sentences() -> ExitCode {
    println!("| Bytes | ns | To the fewest |\n|---|---|---|");
    let times = HOSTILE.map(number_time);
    for (bytes, time) in HOSTILE.iter().zip(times) {
        println!("| {bytes} | {time:.0} | {:.2} |", time / times[0]);
    }
    if times.iter().all(|time| *time <= 3.0 * times[0]) {
        ExitCode::SUCCESS
    } else {
        ExitCode::FAILURE
    }
}

// The time of vps_sentence_number for so many bytes of sentences one behind the other.
fn number_time(bytes: usize) -> f64 {
    let (mut output, mut length) = ([0; MOST_SENTENCE], 0);
    calls::sentence(27, &mut output, &mut length);
    let hostile: Vec<u8> = output[..length as usize].iter().copied().cycle().take(bytes).collect();
    assert_eq!(calls::sentence_number(&hostile), 0, "no sentence");
    let mut run = || {
        black_box(calls::sentence_number(black_box(&hostile)));
    };
    time(&mut run)
}

// ── Layer pages, which the Rust has not ─────────────────────────────────

// A record with 257 sets by rows may take at most so many times as long as one with 64 of the same layers. As many times as
// there are more lines would be 4.
const MOST_TIMES: f64 = 6.0;

fn pages() -> ExitCode {
    println!("| Record | Numbers | Sets | Page, ns | A line, ns | `vps_write`, ns | Page to write |");
    println!("|---|---|---|---|---|---|---|");
    let times: Vec<f64> = by_sets().iter().map(page_row).collect();
    let ratio = times[4] / times[3];
    println!("\n257 sets to 64, by rows: {ratio:.2}; at most {MOST_TIMES}");
    if ratio <= MOST_TIMES {
        ExitCode::SUCCESS
    } else {
        ExitCode::FAILURE
    }
}

fn page_row(case: &Case) -> f64 {
    let (record, sets) = (record_of(&case.vps), case.vps.vps_ols_ptl_idx.len());
    let (mut output, mut unit) = (vec![0; sets * LINE_BYTES], vec![0; case.unit.len()]);
    let (mut length, mut written) = (0, 0);
    assert_eq!(calls::layer_page(&record, &mut output, &mut length), 0, "the page is printed");
    assert!(output == Page::of(&case.vps).bytes, "as the second judge prints it");
    let page = time(&mut || {
        let number = calls::layer_page(black_box(&record), &mut output, &mut length);
        black_box((number, &output, length));
    });
    let write = time(&mut || {
        let number = calls::write(black_box(&record), &mut unit, &mut written);
        black_box((number, &unit, written));
    });
    let (name, line, ratio) = (&case.name, page / sets as f64, page / write);
    println!("| {name} | {} | {sets} | {page:.0} | {line:.0} | {write:.0} | {ratio:.2} |", record.len());
    page
}

// ── Long extensions, by their bits ──────────────────────────────────────

// Twice as many bytes behind the extension flag may take at most so many times as long to read.
const MOST_GROWTH: f64 = 3.0;

fn extensions() -> ExitCode {
    println!("| RBSP behind the flag | 30,000 bytes, ns | 60,000 bytes, ns | Ratio |\n|---|---|---|---|");
    let [shorter, longer] = [30_000, 60_000].map(long_extensions);
    let rows = shorter.iter().zip(&longer);
    let ratios: Vec<f64> = rows.map(|((name, short), (_, long))| extension_row(name, short, long)).collect();
    println!("\nat most {MOST_GROWTH}");
    if ratios.iter().all(|ratio| *ratio <= MOST_GROWTH) {
        ExitCode::SUCCESS
    } else {
        ExitCode::FAILURE
    }
}

fn extension_row(name: &str, short: &[u8], long: &[u8]) -> f64 {
    let (short_time, long_time) = in_turns(&mut reading_as_ruled(short), &mut reading_as_ruled(long));
    let ratio = long_time / short_time;
    println!("| {name} | {short_time:.0} | {long_time:.0} | {ratio:.2} |");
    ratio
}

// The archive's reading of a unit, once it has read it as the second judge does. The Rust refuses extension bits that end
// in 0, and takes minutes over 60,000 bytes of zeros with two one-bits at the end.
fn reading_as_ruled(unit: &[u8]) -> impl FnMut() + '_ {
    let ruled = Reading::of(&found_by_rule(unit).expect("the extension flag is 1"));
    let Reading::Accepted { record: numbers, .. } = &ruled else { panic!("the second judge accepts the unit") };
    let (mut work, mut record) = (vec![0; unit.len()], vec![0; numbers.len()]);
    let (mut length, mut bits) = (0, 0);
    assert_eq!(calls::parse(unit, &mut work, &mut record, &mut length, &mut bits), 0, "the unit is accepted");
    assert_eq!(length, record.len() as u64, "as many numbers as the second judge reads");
    assert!(Reading::Accepted { record, bits_used: bits as usize } == ruled, "as the second judge reads it");
    our_reading(unit, length as usize)
}

// ── Figures, which the Rust has not, by the timing entries ──────────────

// Twice as many timing entries may take at most so many times as long: the numbers before them are as many as before.
const MOST_ENTRY_GROWTH: f64 = 2.5;

// A call for an item of a record: the number and the figure.
type Ask = fn(&[u32], Item) -> (u32, u64);

fn figures() -> ExitCode {
    println!("| Last figure | 30 entries, ns | 60 entries, ns | Ratio |\n|---|---|---|---|");
    let cases = [30, 60].map(with_entries);
    let asks: [(&str, Ask); 3] = [("rate", our_rate), ("size", our_size), ("interval", our_interval)];
    let ratios = asks.map(|(name, ask)| figure_row(name, ask, &cases));
    println!("\nat most {MOST_ENTRY_GROWTH}");
    if ratios.iter().all(|ratio| *ratio <= MOST_ENTRY_GROWTH) {
        ExitCode::SUCCESS
    } else {
        ExitCode::FAILURE
    }
}

fn figure_row(name: &str, ask: Ask, cases: &[Case; 2]) -> f64 {
    let [mut fewer, mut more] = cases.each_ref().map(|case| asking_for_the_last(name, ask, case));
    let (short_time, long_time) = in_turns(&mut fewer, &mut more);
    let ratio = long_time / short_time;
    println!("| {name} | {short_time:.0} | {long_time:.0} | {ratio:.2} |");
    ratio
}

// The call for the last schedule or its sublayer, once it has given what the second judge gives.
fn asking_for_the_last<'a>(name: &str, ask: Ask, case: &'a Case) -> impl FnMut() + use<'a> {
    let record = record_of(&case.vps);
    let last = *schedules(&case.vps).last().expect("there are schedules");
    let judged = match name {
        "rate" => bit_rate(&case.vps, last).ok(),
        "size" => buffer_size(&case.vps, last).ok(),
        _ => picture_interval(&case.vps, last.entry, last.sublayer).ok().flatten(),
    };
    let (number, figure) = ask(&record, last);
    assert_eq!((number, Some(u128::from(figure))), (0, judged), "as the second judge says");
    move || {
        black_box(ask(black_box(&record), last));
    }
}

fn our_rate(record: &[u32], item: Item) -> (u32, u64) {
    let mut rate = 0;
    (calls::bit_rate(record, item.entry, item.sublayer, item.kind, item.schedule, &mut rate), rate)
}

fn our_size(record: &[u32], item: Item) -> (u32, u64) {
    let mut size = 0;
    (calls::buffer_size(record, item.entry, item.sublayer, item.kind, item.schedule, &mut size), size)
}

fn our_interval(record: &[u32], item: Item) -> (u32, u64) {
    let (mut known, mut microseconds) = (0, 0);
    (calls::picture_interval(record, item.entry, item.sublayer, &mut known, &mut microseconds), microseconds)
}

// ── One side alone, for a profiler ──────────────────────────────────────

fn repeat(side: &str, call: &str, name: &str, count: usize) {
    let case = cases().into_iter().chain(growth()).find(|case| case.name == name).expect("a unit of that name");
    let pair = if call == "read" { Sides::reading(&case.unit) } else { Sides::writing(&case) };
    let mut run = if side == "ours" { pair.ours } else { pair.theirs };
    (0..count).for_each(|_| run());
}

// ── The calls ───────────────────────────────────────────────────────────

// The same work by the Rust and by the archive.
struct Sides<'a> {
    theirs: Box<dyn FnMut() + 'a>,
    ours: Box<dyn FnMut() + 'a>,
}

impl<'a> Sides<'a> {
    fn reading(unit: &'a [u8]) -> Self {
        let length = parse_vps(unit).map_or(64, |vps| record_of(&vps).len());
        Sides {
            theirs: Box::new(move || {
                let _ = black_box(parse_vps(black_box(unit)));
            }),
            ours: Box::new(our_reading(unit, length)),
        }
    }

    fn writing(case: &'a Case) -> Self {
        let record = record_of(&case.vps);
        let mut output = vec![0; case.unit.len()];
        let mut written = 0;
        assert_eq!(calls::write(&record, &mut output, &mut written), 0, "the record is written");
        assert!(output == case.unit, "as the Rust writes it");
        Sides {
            theirs: Box::new(move || {
                let _ = black_box(write_vps_nal(black_box(&case.vps)));
            }),
            ours: Box::new(move || {
                let number = calls::write(black_box(&record), &mut output, &mut written);
                black_box((number, &output, written));
            }),
        }
    }

    fn stuffing(theirs: fn(&[u8]) -> Vec<u8>, ours: fn(&[u8], &mut [u8], &mut u64) -> u32, bytes: &'a [u8]) -> Self {
        let mut output = vec![0; bytes.len() + bytes.len() / 2];
        let mut length = 0;
        Sides {
            theirs: Box::new(move || {
                black_box(theirs(black_box(bytes)));
            }),
            ours: Box::new(move || {
                let number = ours(black_box(bytes), &mut output, &mut length);
                black_box((number, &output, length));
            }),
        }
    }

    // The medians of both, in nanoseconds a call.
    fn medians(mut self) -> (f64, f64) {
        in_turns(&mut self.theirs, &mut self.ours)
    }
}

// Reads a unit into a record of so many numbers.
fn our_reading(unit: &[u8], length: usize) -> impl FnMut() + '_ {
    let (mut work, mut record) = (vec![0; unit.len()], vec![0; length]);
    let (mut length, mut bits) = (0, 0);
    move || {
        let number = calls::parse(black_box(unit), &mut work, &mut record, &mut length, &mut bits);
        black_box((number, &work, &record, length, bits));
    }
}

fn reading(case: &Case) -> (f64, f64) {
    reading_unit(&case.unit)
}

fn reading_unit(unit: &[u8]) -> (f64, f64) {
    Sides::reading(unit).medians()
}

fn writing(case: &Case) -> (f64, f64) {
    Sides::writing(case).medians()
}

fn removing(bytes: &[u8]) -> (f64, f64) {
    Sides::stuffing(ebsp_to_rbsp, calls::ebsp_to_rbsp, bytes).medians()
}

fn adding(bytes: &[u8]) -> (f64, f64) {
    Sides::stuffing(rbsp_to_ebsp, calls::rbsp_to_ebsp, bytes).medians()
}

fn byte_strings() -> [(&'static str, Vec<u8>); 3] {
    let mut random = judge::random::Random::new(5);
    let short = unit_of("100000030233000040").expect("pairs of hexadecimal digits");
    [("U's bytes", short), ("random bytes", random.bytes(65_535)), ("mostly zeros", random.bytes_rich_in_zeros(65_535))]
}

// ── Times ───────────────────────────────────────────────────────────────

#[repr(C)]
struct Time {
    seconds: i64,
    nanoseconds: i64,
}

unsafe extern "C" {
    fn clock_gettime(clock: i32, time: *mut Time) -> i32;
}

// Linux's clock of the time that this thread has run.
const THREAD_TIME: i32 = 3;

// What this thread has used of its processor, in nanoseconds: others on the machine don't count.
fn processor_time() -> u64 {
    let mut time = Time { seconds: 0, nanoseconds: 0 };
    // The pointer is that of a time that lives through the call.
    assert_eq!(unsafe { clock_gettime(THREAD_TIME, &mut time) }, 0, "the clock can be read");
    time.seconds as u64 * 1_000_000_000 + time.nanoseconds as u64
}

// How many calls a batch has.
fn batch_size(run: &mut dyn FnMut()) -> usize {
    let mut count = 1;
    loop {
        let began = processor_time();
        (0..count).for_each(|_| run());
        if processor_time() - began >= BATCH {
            return count;
        }
        count *= 2;
    }
}

fn batch(run: &mut dyn FnMut(), count: usize) -> f64 {
    let began = processor_time();
    (0..count).for_each(|_| run());
    (processor_time() - began) as f64 / count as f64
}

// The medians of two calls that take turns, in nanoseconds a call.
fn in_turns(first: &mut dyn FnMut(), second: &mut dyn FnMut()) -> (f64, f64) {
    let (first_count, second_count) = (batch_size(first), batch_size(second));
    let (mut first_times, mut second_times) = (Vec::new(), Vec::new());
    let began = processor_time();
    for _ in 0..ROUNDS {
        first_times.push(batch(first, first_count));
        second_times.push(batch(second, second_count));
        if processor_time() - began >= MOST_TURNS {
            break;
        }
    }
    (median(first_times), median(second_times))
}

// The median of one side alone, in nanoseconds a call.
fn time(run: &mut dyn FnMut()) -> f64 {
    let count = batch_size(run);
    median((0..ROUNDS).map(|_| batch(run, count)).collect())
}

fn median(mut times: Vec<f64>) -> f64 {
    times.sort_by(f64::total_cmp);
    times[times.len() / 2]
}

// ── Rows ────────────────────────────────────────────────────────────────

fn row(call: &str, name: &str, bytes: usize, &(theirs, ours): &(f64, f64)) {
    println!("| {call} | {name} | {bytes} | {theirs:.0} | {ours:.0} | {:.2} |", theirs / ours);
}

fn growth_row(case: &Case) {
    let bytes = case.unit.len() as f64;
    let ((their_read, our_read), (their_write, our_write)) = (reading(case), writing(case));
    println!(
        "| {} | {bytes} | {:.2} | {:.2} | {:.2} | {:.2} | {:.2} | {:.2} |",
        case.name,
        their_read / bytes,
        our_read / bytes,
        their_read / our_read,
        their_write / bytes,
        our_write / bytes,
        their_write / our_write
    );
}
