// Times searches and first-hit questions on proved tables beside loops by hand over like memory.
use std::hint::black_box;
use std::time::Instant;

const CELLS: usize = 8192;
const EMPTY: u8 = 0x80;
const ACCESS: u8 = 0x40;
const HIT: u8 = 0x20;

// A slice passes as a pointer and then a length.
unsafe extern "C" {
    fn device_searches(w: *mut u32, n: usize, m: *mut u8, k: usize, width: u32, rounds: u32, seed: u32) -> u32;
    fn cascade_searches(w: *mut u32, n: usize, m: *mut u8, k: usize, devices: u32, rounds: u32, seed: u32) -> u32;
    fn cascade_first_hits(w: *mut u32, n: usize, m: *mut u8, k: usize, devices: u32, hit: bool, rounds: u32) -> u32;
}

#[derive(Clone, PartialEq)]
struct Memory {
    words: Vec<u32>,
    marks: Vec<u8>,
}

impl Memory {
    fn new(devices: usize) -> Memory {
        Memory { words: vec![0; CELLS * devices], marks: vec![0; CELLS * devices] }
    }
}

#[derive(Clone, Copy)]
struct Search {
    key: u32,
    mask: u32,
    segment: usize,
    head: bool,
    access: bool,
}

// What a search makes of each row's byte, without a branch: what the query alone decides is worked
// out once.
fn comparer(q: Search) -> impl Fn(u32, u8) -> u8 {
    let key = q.key | q.mask;
    let head = if q.head { HIT } else { 0 };
    let set = if q.access { HIT | ACCESS } else { HIT };
    move |word, byte| {
        let hits = (word | q.mask == key) & ((byte | head) & (EMPTY | HIT) == HIT);
        byte & (EMPTY | ACCESS) | if hits { set } else { 0 }
    }
}

// The width is known to the compiler, as it would be in a table made for one width.
fn search_at<const WIDTH: usize>(words: &[u32], marks: &mut [u8], q: Search) {
    let compared = comparer(q);
    let segment = q.segment;
    assert!(segment < WIDTH);
    for (byte, row) in marks.iter_mut().zip(words.as_chunks::<WIDTH>().0) {
        *byte = compared(row[segment], *byte);
    }
}

fn search(words: &[u32], marks: &mut [u8], width: usize, q: Search) {
    match width {
        1 => search_at::<1>(words, marks, q),
        2 => search_at::<2>(words, marks, q),
        _ => search_at::<8>(words, marks, q),
    }
}

fn first_hit(marks: &[u8], from: u32) -> Option<u32> {
    let found = marks[from as usize..].iter().position(|byte| byte & HIT != 0)?;
    Some(from + found as u32)
}

fn next(n: u32) -> u32 {
    n.wrapping_mul(1664525).wrapping_add(1013904223)
}

fn open(memory: &mut Memory) {
    memory.words.fill(0);
    memory.marks.fill(EMPTY);
}

#[inline(never)]
fn searches_by_hand(memory: &mut Memory, width: usize, rounds: u32, seed: u32) -> u32 {
    open(memory);
    let depth = memory.words.len() / width;
    let marks = &mut memory.marks[..depth];
    let mut n = seed;
    for row in 0..depth {
        for segment in 0..width {
            n = next(n);
            if row & 7 != 7 {
                memory.words[row * width + segment] = n >> 16;
                marks[row] &= !EMPTY;
            }
        }
    }
    let mut n = seed;
    for round in 0..rounds {
        n = next(n);
        let q = Search {
            key: n >> 16,
            mask: n | n << 3 | n << 7,
            segment: round as usize % width,
            head: round & 3 != 3,
            access: n & 0x7000_0000 == 0,
        };
        search(&memory.words, marks, width, q);
    }
    first_hit(marks, 0).unwrap_or(depth as u32)
}

#[inline(never)]
fn first_hits_by_hand(memory: &mut Memory, hit: bool, rounds: u32) -> u32 {
    open(memory);
    let last = memory.marks.len() - 1;
    memory.words[last] = 5;
    memory.marks[last] = if hit { HIT } else { 0 };
    let mut mixed = 0u32;
    for round in 0..rounds {
        if let Some(row) = first_hit(&memory.marks, round & 3) {
            mixed = mixed.wrapping_add(row);
        }
    }
    mixed
}

// The best of many runs of each side, in turn. What setting up takes is the time of no rounds at
// all, and is taken off. Both sides leave the same answers, words and mark bytes.
fn compare(name: &str, devices: usize, rows: usize, rounds: u32, proved: impl Fn(&mut Memory, u32) -> u32, hand: impl Fn(&mut Memory, u32) -> u32) {
    let (mut a, mut b) = (Memory::new(devices), Memory::new(devices));
    let mut best = [[f64::MAX; 2]; 2];
    for _ in 0..300 {
        for (i, rounds) in [0, rounds].into_iter().enumerate() {
            let start = Instant::now();
            let x = proved(black_box(&mut a), black_box(rounds));
            let middle = Instant::now();
            let y = hand(black_box(&mut b), black_box(rounds));
            let end = Instant::now();
            assert_eq!(x, y, "{name}: the same answer");
            assert!(a == b, "{name}: the same memory after it");
            best[0][i] = best[0][i].min((middle - start).as_secs_f64());
            best[1][i] = best[1][i].min((end - middle).as_secs_f64());
        }
    }
    let [ours, theirs] = best.map(|[none, all]| (all - none) / rounds as f64 / rows as f64 * 1e9);
    println!("{name:<42} {ours:>9.4} {theirs:>9.4} {:>7.2}", ours / theirs);
}

fn main() {
    println!("{:<42} {:>9} {:>9} {:>7}", "nanoseconds for each row", "proved", "by hand", "ratio");
    for width in [1, 2, 8] {
        let name = format!("search, one device of width {width}");
        let rows = CELLS / width;
        compare(&name, 1, rows, (400 * width) as u32, |m, rounds| unsafe { device_searches(m.words.as_mut_ptr(), m.words.len(), m.marks.as_mut_ptr(), m.marks.len(), width as u32, rounds, 7) }, |m, rounds| searches_by_hand(m, width, rounds, 7));
    }
    for devices in [1, 2, 8, 32] {
        let name = format!("search, cascade of {devices}");
        compare(&name, devices, CELLS * devices, (400 / devices as u32).max(40), |m, rounds| unsafe { cascade_searches(m.words.as_mut_ptr(), m.words.len(), m.marks.as_mut_ptr(), m.marks.len(), devices as u32, rounds, 7) }, |m, rounds| searches_by_hand(m, 1, rounds, 7));
    }
    for devices in [1, 2, 8, 32] {
        for (hit, which) in [(false, "no row"), (true, "the last row")] {
            let name = format!("first hit at {which}, cascade of {devices}");
            compare(&name, devices, CELLS * devices, (800 / devices as u32).max(40), |m, rounds| unsafe { cascade_first_hits(m.words.as_mut_ptr(), m.words.len(), m.marks.as_mut_ptr(), m.marks.len(), devices as u32, hit, rounds) }, |m, rounds| first_hits_by_hand(m, hit, rounds));
        }
    }
}
