//! The read routine and the one before it, by their entries: held to document 01's rule, then timed in turn at several places of
//! the buffer and of the words.

use std::{hint::black_box, iter, ptr, time::Instant};

use crate::median;

type Read = unsafe extern "C" fn(u32, *const u32, usize, *mut u8, usize) -> u32;

unsafe extern "C" {
    fn read_one_pass(n: u32, words: *const u32, count: usize, buf: *mut u8, len: usize) -> u32;
    fn read_two_passes(n: u32, words: *const u32, count: usize, buf: *mut u8, len: usize) -> u32;
    fn read_both(
        n: u32,
        words: *const u32,
        count: usize,
        buf: *mut u8,
        len: usize,
        copy: *mut u8,
        copy_len: usize,
    ) -> u32;
}

const BUFFER: usize = 2048;
/// The longest read whose transfer the work buffer holds.
const LONGEST: usize = 2044;
/// The lengths that are timed, and how many reads a batch has.
const TIMED: [(usize, &str); 4] = [(1, "1"), (61, "61"), (1501, "1,501"), (1536, "1,536")];
const CALLS: usize = 500;
/// Where a buffer begins after a multiple of 64 bytes, and where that multiple lies in a page.
const PLACES: [usize; 16] = [0, 1, 2, 3, 4, 6, 8, 12, 16, 20, 24, 31, 32, 40, 48, 63];
const IN_PAGE: [usize; 4] = [0, 1024, 2048, 3072];
/// Bytes before and after a buffer, which stay.
const AROUND: usize = 64;

#[repr(align(64))]
#[derive(Clone)]
struct Memory([u8; AROUND + 4096 + BUFFER + AROUND]);

#[repr(align(64))]
struct Words([u32; 16 + 1 + LONGEST / 4 + 1]);

/// How many words a read of n bytes transfers.
fn transferred(n: usize) -> usize {
    1 + n.div_ceil(4)
}

fn numbers(seed: u64) -> impl Iterator<Item = u32> {
    iter::successors(Some(seed), |x| {
        Some(x.wrapping_mul(6364136223846793005).wrapping_add(1442695040888963407))
    })
    .map(|x| (x >> 32) as u32)
}

impl Memory {
    fn new(seed: u64) -> Box<Self> {
        let mut memory = Box::new(Self([0; _]));
        memory.0.iter_mut().zip(numbers(seed)).for_each(|(byte, x)| *byte = x as u8);
        memory
    }

    fn buffer(&mut self, place: usize, len: usize) -> &mut [u8] {
        &mut self.0[AROUND + place..][..len]
    }
}

impl Words {
    fn new(seed: u64) -> Box<Self> {
        let mut words = Box::new(Self([0; _]));
        words.0.iter_mut().zip(numbers(seed)).for_each(|(word, x)| *word = x);
        words
    }

    /// The transfer of a read of n bytes, at one of 16 places.
    fn transfer(&self, place: usize, n: usize) -> &[u32] {
        &self.0[place % 16..][..transferred(n)]
    }
}

/// 'Afterwards buffer byte i is T[i+4] for i < n, T[i] for n <= i < length of T, else unchanged.'
fn rule(n: usize, words: &[u32], buf: &mut [u8]) {
    let transfer: Vec<u8> = words.iter().flat_map(|word| word.to_le_bytes()).collect();
    for (i, byte) in buf.iter_mut().enumerate() {
        if i < n {
            *byte = transfer[i + 4];
        } else if i < transfer.len() {
            *byte = transfer[i];
        }
    }
}

/// Both routines leave what the rule says, of whole buffers and of shorter ones, and nothing around them; one word more or fewer
/// is refused.
pub fn compare() {
    for n in 0..=LONGEST {
        let place = PLACES[n % PLACES.len()];
        let words = Words::new(n as u64);
        let transfer = words.transfer(n / PLACES.len(), n);
        for len in [BUFFER, n * 7 % BUFFER] {
            let entry = Memory::new(!(n as u64));
            let mut expected = entry.clone();
            rule(n, transfer, expected.buffer(place, len));
            for read in [read_two_passes, read_one_pass] {
                let mut memory = entry.clone();
                assert_eq!(
                    call(read, n, transfer, memory.buffer(place, len)),
                    0,
                    "a read of {n} bytes"
                );
                assert!(memory.0 == expected.0, "a read of {n} bytes into {len}");
            }
            let (mut memory, mut copy) = (entry.clone(), Memory::new(n as u64));
            assert_eq!(both(n, transfer, memory.buffer(place, len), copy.buffer(0, len)), 0);
            assert!(memory.0 == expected.0, "both reads of {n} bytes into {len}");
            assert!(copy.buffer(0, len) == expected.buffer(place, len), "the copy of {n} bytes");
        }
        for count in [transferred(n) - 1, transferred(n) + 1] {
            let transfer = &words.0[..count];
            let entry = Memory::new(n as u64);
            let (mut memory, mut copy) = (entry.clone(), entry.clone());
            for read in [read_two_passes, read_one_pass] {
                assert_eq!(
                    call(read, n, transfer, memory.buffer(place, BUFFER)),
                    1,
                    "{count} words"
                );
            }
            assert_eq!(both(n, transfer, memory.buffer(0, BUFFER), copy.buffer(0, BUFFER)), 1);
            assert!(memory.0 == entry.0 && copy.0 == entry.0, "{count} words for {n} bytes");
        }
    }
}

fn call(read: Read, n: usize, words: &[u32], buf: &mut [u8]) -> u32 {
    unsafe { read(n as u32, words.as_ptr(), words.len(), buf.as_mut_ptr(), buf.len()) }
}

fn both(n: usize, words: &[u32], buf: &mut [u8], copy: &mut [u8]) -> u32 {
    unsafe {
        read_both(
            n as u32,
            words.as_ptr(),
            words.len(),
            buf.as_mut_ptr(),
            buf.len(),
            copy.as_mut_ptr(),
            copy.len(),
        )
    }
}

/// A copy of as many bytes by the C library, to hold the routines against.
unsafe extern "C" fn copied(
    _: u32,
    words: *const u32,
    count: usize,
    buf: *mut u8,
    _: usize,
) -> u32 {
    unsafe { ptr::copy_nonoverlapping(words.cast(), buf, 4 * black_box(count)) };
    0
}

/// Nanoseconds a call.
#[inline(never)]
fn batch(read: Read, n: usize, words: &[u32], buf: &mut [u8]) -> f64 {
    let read = black_box(read);
    let start = Instant::now();
    for _ in 0..CALLS {
        black_box(call(read, black_box(n), words, black_box(&mut *buf)));
    }
    start.elapsed().as_nanos() as f64 / CALLS as f64
}

/// One pass, two passes and the copy at one place: a batch each in turn, and the medians.
fn time(n: usize, count: usize, place: usize, repeats: usize) -> [f64; 3] {
    let (words, mut memory) = (Words::new(1), Memory::new(2));
    let transfer = &words.0[5 * place % 16..][..count];
    let mut times = [const { Vec::new() }; 3];
    for _ in 0..repeats {
        for (read, times) in [read_one_pass, read_two_passes, copied].iter().zip(&mut times) {
            times.push(batch(*read, n, transfer, memory.buffer(place, BUFFER)));
        }
    }
    times.map(median)
}

/// The medians over some places of the buffer; the copy's only where there is something to copy.
fn print_row(name: &str, n: usize, count: usize, places: &[usize], repeats: usize) {
    let times: Vec<_> = places.iter().map(|place| time(n, count, *place, repeats)).collect();
    let of = |k: usize| median(times.iter().map(|t| t[k]).collect());
    let ratios: Vec<_> = times.iter().map(|t| t[0] / t[1]).collect();
    println!(
        "{name:<30} {:>5} {:>10.1} {:>10.1} {:>7.2}   {:<13} {:>8}",
        places.len(),
        of(0),
        of(1),
        median(ratios.clone()),
        format!(
            "{:.2}, {:.2}",
            ratios.iter().copied().fold(f64::INFINITY, f64::min),
            ratios.iter().copied().fold(0.0, f64::max)
        ),
        if count == transferred(n) { format!("{:.1}", of(2)) } else { String::new() }
    );
}

/// Prints the times of both routines, of reads of so many bytes, into buffers that begin at a multiple of 16 bytes and into others.
pub fn print(short: bool) {
    let repeats = if short { 5 } else { 51 };
    println!(
        "\n{:<30} {:>5} {:>10} {:>10} {:>7}   {:<13} {:>8}",
        "ns, the read routine alone", "place", "one pass", "two", "ratio", "least, most", "memcpy"
    );
    let places = IN_PAGE.iter().flat_map(|start| PLACES.iter().map(move |place| start + place));
    let (even, odd): (Vec<_>, Vec<_>) = places.partition(|place| place % 16 == 0);
    print_row("words of no read, refused", 1, 1, &even, repeats);
    for (n, name) in TIMED {
        print_row(&format!("{name} bytes, at 16"), n, transferred(n), &even, repeats);
        print_row(&format!("{name} bytes, elsewhere"), n, transferred(n), &odd, repeats);
    }
}
