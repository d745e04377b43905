// How deep each exported function of the static archive writes into its stack: every call runs on a stack of its own
// that was painted beforehand, and afterwards the lowest changed word is looked for.
use archive::calls;
use archive::cases::{cases, growth};
use archive::pages::MOST_PAGE;
use archive::sentences::MOST_SENTENCE;
use bitstream::h266::{parse_vps, write_vps_nal, VvcVps};
use judge::figures::{schedules, Item, NAL};
use judge::random::Random;
use judge::record::{read, structure_of, Reading};
use judge::units::Units;
use std::arch::asm;
use std::hint::black_box;

// A stack of so many words, painted with a word that depends on the place.
const WORDS: usize = 1 << 17;

// So many units of the oracle's streams, besides those that are timed.
const UNITS: usize = 20_000;

// So many numbers, from 0 on: those of the refusals, and others.
const NUMBERS: u32 = 256;

struct Stack {
    words: Vec<u64>,
}

fn paint(place: usize) -> u64 {
    (place as u64).wrapping_mul(0x9e37_79b9_7f4a_7c15) | 1
}

impl Stack {
    fn new() -> Self {
        Self { words: (0..WORDS).map(paint).collect() }
    }

    // How many bytes below its start a call writes. The stack is painted again afterwards.
    fn depth(&mut self, mut call: impl FnMut()) -> usize {
        extern "C" fn enter<F: FnMut()>(call: *mut F) {
            // The pointer is that of the closure, which lives through the call.
            unsafe { (*call)() }
        }
        // The top is at a multiple of 16 bytes, as calls ask.
        let start = self.words.as_mut_ptr_range().end as usize & !15;
        unsafe { on_stack(start, enter::<_>, &mut call) };
        let lowest =
            (0..WORDS).find(|&place| self.words[place] != paint(place)).expect("a call writes its return address");
        let depth = start - &raw const self.words[lowest] as usize;
        (lowest..WORDS).for_each(|place| self.words[place] = paint(place));
        depth
    }
}

// Calls a function on another stack.
unsafe fn on_stack<F>(start: usize, function: extern "C" fn(*mut F), argument: *mut F) {
    unsafe {
        asm!(
            "mov r12, rsp",
            "mov rsp, {start}",
            "call {function}",
            "mov rsp, r12",
            start = in(reg) start,
            function = in(reg) function,
            in("rdi") argument,
            out("r12") _,
            clobber_abi("C"),
        );
    }
}

// The greatest depths, by name, with what has to be taken off for the way into the closure.
struct Depths {
    stack: Stack,
    entering: usize,
    found: Vec<(&'static str, usize, usize)>,
}

impl Depths {
    fn new() -> Self {
        let mut stack = Stack::new();
        let entering = stack.depth(|| {
            black_box(0);
        });
        Self { stack, entering, found: Vec::new() }
    }

    fn call(&mut self, name: &'static str, call: impl FnMut()) {
        let depth = self.stack.depth(call).saturating_sub(self.entering);
        match self.found.iter_mut().find(|found| found.0 == name) {
            Some(found) => *found = (name, found.1.max(depth), found.2 + 1),
            None => self.found.push((name, depth, 1)),
        }
    }

    fn unit(&mut self, unit: &[u8]) {
        let reading = read(unit);
        let numbers = match &reading {
            Reading::Accepted { record, .. } => record.len(),
            Reading::Refused(_) => 64,
        };
        let (mut work, mut list) = (vec![0; unit.len()], vec![0; numbers]);
        let mut output = vec![0; unit.len() + unit.len() / 2 + 8];
        let (mut a, mut b) = (0, 0);
        self.call("vps_parse", || {
            black_box(calls::parse(unit, &mut work, &mut list, &mut a, &mut b));
        });
        self.call("the Rust's parse_vps", || {
            let _ = black_box(parse_vps(unit));
        });
        self.call("vps_ebsp_to_rbsp", || {
            black_box(calls::ebsp_to_rbsp(unit, &mut output, &mut a));
        });
        self.call("vps_rbsp_to_ebsp", || {
            black_box(calls::rbsp_to_ebsp(unit, &mut output, &mut a));
        });
        if let Reading::Accepted { record, .. } = reading {
            self.record(unit, &record, &mut output);
        }
    }

    fn record(&mut self, unit: &[u8], record: &[u32], output: &mut [u8]) {
        let vps = structure_of(unit).expect("it is accepted");
        let (mut a, mut b) = (0, 0);
        self.call("vps_write", || {
            black_box(calls::write(record, output, &mut a));
        });
        let mut page = [0; MOST_PAGE];
        self.call("vps_layer_page", || {
            black_box(calls::layer_page(record, &mut page, &mut a));
        });
        self.figures(record, &vps);
        self.call("the Rust's write_vps_nal", || {
            let _ = black_box(write_vps_nal(&vps));
        });
        for number in 0..10 {
            self.call("vps_section", || {
                black_box(calls::section(record, number, &mut a, &mut b));
            });
        }
    }

    // The figures of the first schedule and of the last, or of a missing one where there is none.
    fn figures(&mut self, record: &[u32], vps: &VvcVps) {
        let there = schedules(vps);
        let missing = Item { entry: 0, sublayer: 0, kind: NAL, schedule: 0 };
        let (mut known, mut figure) = (0, 0);
        for item in [there.first(), there.last()] {
            let &Item { entry, sublayer, kind, schedule } = item.unwrap_or(&missing);
            self.call("vps_bit_rate", || {
                black_box(calls::bit_rate(record, entry, sublayer, kind, schedule, &mut figure));
            });
            self.call("vps_buffer_size", || {
                black_box(calls::buffer_size(record, entry, sublayer, kind, schedule, &mut figure));
            });
            self.call("vps_picture_interval", || {
                black_box(calls::picture_interval(record, entry, sublayer, &mut known, &mut figure));
            });
        }
    }

    // The sentence of a number, and back.
    fn sentence(&mut self, number: u32) {
        let (mut output, mut length) = ([0; MOST_SENTENCE], 0);
        self.call("vps_sentence", || {
            black_box(calls::sentence(number, &mut output, &mut length));
        });
        let sentence = &output[..length as usize];
        self.call("vps_sentence_number", || {
            black_box(calls::sentence_number(sentence));
        });
    }
}

fn main() {
    let mut depths = Depths::new();
    for case in cases().into_iter().chain(growth()) {
        depths.unit(&case.unit);
    }
    let mut random = Random::new(6);
    for longest in [64, 400, 4_096] {
        let mut units = Units::new(random.number(), longest);
        (0..UNITS).for_each(|_| depths.unit(&units.next().bytes));
    }
    (0..NUMBERS).for_each(|number| depths.sentence(number));
    println!("| Call | Deepest, bytes | Calls |\n|---|---|---|");
    depths.found.sort();
    depths.found.iter().for_each(|(name, depth, calls)| println!("| {name} | {depth} | {calls} |"));
}
