// Times searches on the proved plane table beside the same planes written by hand.
use std::hint::black_box;
use std::time::Instant;

unsafe extern "C" {
    fn planes_searches(rounds: u32, seed: u32) -> u32;
}

struct Planes {
    planes: [u64; 64],
    empty: u64,
    access: u64,
    hit: u64,
}

impl Planes {
    fn new() -> Planes {
        Planes { planes: [0; 64], empty: u64::MAX, access: 0, hit: 0 }
    }

    fn write(&mut self, row: u32, segment: u32, word: u32) {
        for b in 0..32 {
            let plane = &mut self.planes[(32 * segment + b) as usize];
            *plane = *plane & !(1 << row) | ((word >> b & 1) as u64) << row;
        }
        if segment == 0 {
            self.empty &= !(1 << row);
        }
    }

    fn search(&mut self, key: u32, mask: u32, segment: u32, head: bool, access: bool) -> bool {
        if segment >= 2 {
            return false;
        }
        let base = 32 * segment as usize;
        let mut missed = 0u64;
        for (b, plane) in self.planes[base..base + 32].iter().enumerate() {
            let wanted = 0u64.wrapping_sub((key >> b & 1) as u64);
            let open = 0u64.wrapping_sub((mask >> b & 1) as u64);
            missed |= (plane ^ wanted) & !open;
        }
        let before = if head { u64::MAX } else { self.hit };
        self.hit = before & !missed & !self.empty;
        if access {
            self.access |= self.hit;
        }
        true
    }

    fn first_hit(&self, from: u32) -> Option<u32> {
        let left = if from < 64 { self.hit >> from } else { 0 };
        if left == 0 { None } else { Some(from + left.trailing_zeros()) }
    }
}

fn next(n: u32) -> u32 {
    n.wrapping_mul(1664525).wrapping_add(1013904223)
}

fn by_hand(rounds: u32, seed: u32) -> u32 {
    let mut table = Planes::new();
    let mut n = seed;
    for row in 0..64 {
        n = next(n);
        table.write(row, 0, n);
        n = next(n);
        table.write(row, 1, n);
    }
    let mut n = seed;
    let mut mixed = 0u32;
    for round in 0..rounds {
        n = next(n);
        table.search(n, n | n << 3 | n << 7, round & 1, round & 1 == 0, n & 64 == 64);
        if let Some(row) = table.first_hit(0) {
            mixed = mixed.wrapping_mul(31).wrapping_add(row);
        }
    }
    mixed
}

fn timed(f: impl Fn(u32, u32) -> u32, rounds: u32, seed: u32) -> (f64, u32) {
    let start = Instant::now();
    let mixed = f(black_box(rounds), black_box(seed));
    (start.elapsed().as_secs_f64(), mixed)
}

fn main() {
    let rounds = 4_000_000;
    let (mut ours, mut hand) = (f64::MAX, f64::MAX);
    for seed in 1..=15 {
        let (t, a) = timed(|r, s| unsafe { planes_searches(r, s) }, rounds, seed);
        let (u, b) = timed(by_hand, rounds, seed);
        assert_eq!(a, b, "the two tables hit the same rows");
        ours = ours.min(t);
        hand = hand.min(u);
    }
    println!("proved   {:.1} million searches a second", rounds as f64 / ours / 1e6);
    println!("by hand  {:.1} million searches a second", rounds as f64 / hand / 1e6);
    println!("ratio of times {:.2}", ours / hand);
}
