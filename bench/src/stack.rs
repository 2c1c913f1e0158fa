//! The stack that our calls were seen to take: it is marked before the calls, and the deepest byte that
//! they changed tells. A bound for all calls is stack.py's.

use crate::cases::Asked;
use crate::seqochanu::raw::{
    seqochanu_bar_page, seqochanu_hall_list, seqochanu_lesson, seqochanu_reread, seqochanu_sheet,
    seqochanu_to_edition_1, seqochanu_to_edition_2,
};
use crate::seqochanu::{COUNT_MOST, LIST_MOST, PAGE_MOST, SHEET_MOST};

/// How far down the stack is marked, and what is left for this module's own calls.
const MARKED: usize = 512 << 10;
const OWN: usize = 4 << 10;
const STACK: usize = 1 << 20;

/// How many seeds a search has.
const SEARCHED: u64 = 64;

fn mark(place: usize) -> u8 {
    0xa5 ^ (place / 8) as u8
}

fn stack_pointer() -> usize {
    let at: usize;
    unsafe { std::arch::asm!("mov {}, rsp", out(reg) at) };
    at
}

/// Calls a C function of at most seven numbers; the stack pointer before the call. Six go into registers, and the
/// seventh onto the stack: it is the caller's, and a function that has no seventh does not look at it.
fn call<const N: usize>(function: usize, numbers: [u64; N]) -> usize {
    let mut all = [0; 7];
    all[..N].copy_from_slice(&numbers);
    let [a, b, c, d, e, f, g] = all;
    let at: usize;
    unsafe {
        std::arch::asm!(
            // pushed twice, since the stack pointer is a multiple of 16 here and must be one at the call
            "push {seventh}",
            "push {seventh}",
            "mov r12, rsp",
            "call {function}",
            "add rsp, 16",
            function = in(reg) function,
            seventh = in(reg) g,
            in("rdi") a, in("rsi") b, in("rdx") c, in("rcx") d, in("r8") e, in("r9") f,
            out("r12") at,
            clobber_abi("C"),
        );
    }
    at
}

/// The bytes below the stack pointer that some of the calls changed, return address and all.
fn taken(calls: impl FnOnce() -> usize) -> usize {
    let top = stack_pointer();
    let (low, high) = (top - MARKED, top - OWN);
    for place in low..high {
        unsafe { (place as *mut u8).write_volatile(mark(place)) };
    }
    let before = calls();
    let changed = |&place: &usize| unsafe { (place as *const u8).read_volatile() } != mark(place);
    let deepest = (low..high).find(changed).expect("a call leaves its trace");
    assert!(deepest > low, "the calls went deeper than is marked");
    before - deepest
}

fn sheets(songs: &[Asked]) -> usize {
    let mut buf = [0u8; SHEET_MOST];
    let (bytes, len) = (buf.as_mut_ptr() as u64, SHEET_MOST as u64);
    let function = seqochanu_sheet as *const () as usize;
    let all = songs
        .iter()
        .map(|a| call(function, [a.style.into(), a.seed, bytes, len]));
    all.last().expect("a song")
}

fn pages(songs: &[Asked]) -> usize {
    let mut buf = [0u8; PAGE_MOST];
    let (bytes, len) = (buf.as_mut_ptr() as u64, PAGE_MOST as u64);
    let function = seqochanu_bar_page as *const () as usize;
    let all = songs
        .iter()
        .flat_map(|a| (0..a.bars).map(move |bar| (a, bar)));
    let all = all.map(|(a, bar)| call(function, [a.style.into(), a.seed, bar, bytes, len]));
    all.last().expect("a page")
}

/// A call that takes a sheet, over the sheets of both editions. A reading, a search or a list may take less stack than
/// is left for this module, so its calls need a frame below that: the buffer has one.
#[inline(never)]
fn of_sheets(function: usize, songs: &[Asked]) -> usize {
    let mut buf = [0u8; SHEET_MOST];
    let (bytes, len) = (buf.as_mut_ptr() as u64, SHEET_MOST as u64);
    let all = songs.iter().flat_map(|a| a.sheets()).map(|sheet| {
        let (sheet, sheet_len) = (sheet.as_ptr() as u64, sheet.len() as u64);
        call(function, [sheet, sheet_len, bytes, len])
    });
    all.last().expect("a sheet")
}

/// The calls that take a sheet.
fn sheet_calls() -> [(&'static str, usize); 3] {
    [
        ("seqochanu_reread", seqochanu_reread as *const () as usize),
        (
            "seqochanu_to_edition_1",
            seqochanu_to_edition_1 as *const () as usize,
        ),
        (
            "seqochanu_to_edition_2",
            seqochanu_to_edition_2 as *const () as usize,
        ),
    ]
}

#[inline(never)]
fn lists(songs: &[Asked]) -> usize {
    let mut buf = [0u8; LIST_MOST];
    let (bytes, len) = (buf.as_mut_ptr() as u64, LIST_MOST as u64);
    let function = seqochanu_hall_list as *const () as usize;
    let all = songs
        .iter()
        .map(|a| call(function, [a.seed, COUNT_MOST, bytes, len]));
    all.last().expect("a hall")
}

/// Searches from the songs' seeds on: for any song, and for one that is faster than any.
#[inline(never)]
fn searches(songs: &[Asked]) -> usize {
    let mut seeds = [0u64; OWN / 4];
    let seed = seeds.as_mut_ptr() as u64;
    let function = seqochanu_lesson as *const () as usize;
    let all = songs.iter().map(|a| {
        let search = |[key, tempo, voice]: [u64; 3]| {
            let style = a.style.into();
            call(function, [style, a.seed, SEARCHED, key, tempo, voice, seed])
        };
        search([12, 0, 255]);
        search([5, 200, 0])
    });
    let before = all.last().expect("a search");
    let first = songs[songs.len() - 1].seed;
    assert!(seeds[0].wrapping_sub(first) < SEARCHED, "the seed is set");
    before
}

/// Prints the most stack that each function took over the songs, and over the spans and the halls of their seeds.
pub fn report(songs: Vec<Asked>) {
    let measure = move || {
        println!("seqochanu_sheet: took {} bytes", taken(|| sheets(&songs)));
        println!("seqochanu_bar_page: took {} bytes", taken(|| pages(&songs)));
        for (name, function) in sheet_calls() {
            let bytes = taken(|| of_sheets(function, &songs));
            println!("{name}: took {bytes} bytes");
        }
        let searched = taken(|| searches(&songs));
        println!("seqochanu_lesson: took {searched} bytes");
        println!(
            "seqochanu_hall_list: took {} bytes",
            taken(|| lists(&songs))
        );
    };
    let thread = std::thread::Builder::new().stack_size(STACK).spawn(measure);
    thread.expect("a thread").join().expect("it ended");
}
