// Coverage of the archive, which has no counters of its own: a trap at the start of each of its basic blocks. The first
// run through a block takes the trap away and sets the block's counter, which the fuzzer watches.
use std::sync::atomic::{AtomicPtr, AtomicUsize, Ordering};

const BLOCKS: usize = 1 << 15;

// The fuzzer's runtime finds its further counters by the name of this section.
#[used]
#[unsafe(link_section = "__libfuzzer_extra_counters")]
static mut COUNTERS: [u8; BLOCKS] = [0; BLOCKS];

// The blocks, rising, each with the byte that the trap replaced.
struct Blocks {
    places: Vec<(usize, u8)>,
}

static SET: AtomicPtr<Blocks> = AtomicPtr::new(std::ptr::null_mut());
static BASE: AtomicUsize = AtomicUsize::new(0);
static REACHED: AtomicUsize = AtomicUsize::new(0);

const TRAP: u8 = 0xcc;
const SIGTRAP: i32 = 5;
const SA_SIGINFO: i32 = 4;
const SA_NODEFER: i32 = 0x4000_0000;
const READ_WRITE_EXECUTE: i32 = 7;
const PAGE: usize = 4_096;
// where x86-64 Linux keeps the place of the next instruction in the context of a signal
const NEXT_INSTRUCTION: usize = 40 + 16 * 8;

#[repr(C)]
struct Action {
    handler: usize,
    mask: [u64; 16],
    flags: i32,
    restorer: usize,
}

unsafe extern "C" {
    fn sigaction(signal: i32, action: *const Action, before: *mut Action) -> i32;
    fn mprotect(start: usize, length: usize, rights: i32) -> i32;
    fn atexit(function: extern "C" fn()) -> i32;
    fn vps_parse();
}

// Sets a trap at each block of a list: the address of vps_parse in the program's file, and then the blocks' addresses
// there, in hexadecimal.
pub fn set(list: &str) {
    let mut addresses = list.split_whitespace().map(|word| usize::from_str_radix(word, 16).expect("an address"));
    let base = vps_parse as *const () as usize - addresses.next().expect("the address of vps_parse");
    BASE.store(base, Ordering::SeqCst);
    let mut places: Vec<usize> = addresses.map(|address| base + address).collect();
    places.sort();
    places.dedup();
    assert!(!places.is_empty() && places.len() <= BLOCKS, "as many blocks as counters");
    let (first, last) = (places[0] & !(PAGE - 1), places[places.len() - 1] + PAGE);
    // The pages hold the archive's code; each place is the start of one of its instructions.
    unsafe {
        assert_eq!(mprotect(first, (last - first) & !(PAGE - 1), READ_WRITE_EXECUTE), 0, "the code can be written");
        let with_bytes = |&place: &usize| (place, *(place as *const u8));
        let blocks = Blocks { places: places.iter().map(with_bytes).collect() };
        SET.store(Box::into_raw(Box::new(blocks)), Ordering::SeqCst);
        let action = Action {
            handler: reached as *const () as usize,
            mask: [0; 16],
            flags: SA_SIGINFO | SA_NODEFER,
            restorer: 0,
        };
        assert_eq!(sigaction(SIGTRAP, &action, std::ptr::null_mut()), 0, "the trap has a handler");
        places.iter().for_each(|&place| (place as *mut u8).write_volatile(TRAP));
        atexit(say);
    }
}

// A block is reached: its first byte is put back, its counter set, and it is run.
extern "C" fn reached(_signal: i32, _info: *const u8, context: *mut u8) {
    // The kernel gives the context, and the blocks stay from `set` on.
    unsafe {
        let next = context.add(NEXT_INSTRUCTION) as *mut usize;
        let place = *next - 1;
        let blocks = &*SET.load(Ordering::SeqCst);
        match blocks.places.binary_search_by_key(&place, |block| block.0) {
            Ok(index) => {
                (place as *mut u8).write_volatile(blocks.places[index].1);
                (&raw mut COUNTERS[index]).write_volatile(1);
                REACHED.fetch_add(1, Ordering::SeqCst);
                *next = place;
            }
            Err(_) => std::process::abort(),
        }
    }
}

// What was reached, and where the blocks stand in the program's file that were not.
extern "C" fn say() {
    let blocks = unsafe { &*SET.load(Ordering::SeqCst) };
    eprintln!("blocks of the archive reached: {} of {}", REACHED.load(Ordering::SeqCst), blocks.places.len());
    if let Ok(file) = std::env::var("VPS_FUZZ_UNREACHED") {
        let left = blocks.places.iter().filter(|block| unsafe { *(block.0 as *const u8) } == TRAP);
        let text: String = left.map(|block| format!("{:x}\n", block.0 - BASE.load(Ordering::SeqCst))).collect();
        let _ = std::fs::write(file, text);
    }
}
