// The cost of judge-and-note of both books, through the bridge, beside a plain window of 128 bits, on one sequence.
use std::hint::black_box;
use std::time::Instant;

unsafe extern "C" {
    fn arrivals_mask_run(places: *const usize, places_len: usize, numbers: *const u32, numbers_len: usize, judgements: *mut u8, judgements_len: usize) -> usize;
    fn arrivals_list_run(places: *const usize, places_len: usize, numbers: *const u32, numbers_len: usize, judgements: *mut u8, judgements_len: usize) -> usize;
}

type Run = unsafe extern "C" fn(*const usize, usize, *const u32, usize, *mut u8, usize) -> usize;

const LENGTH: usize = 1_000_000;
const ROUNDS: usize = 25;

// The kind of window that QUIC stacks use: a bit for each of the last numbers, the newest beside it as the next expected.
// It takes numbers that do not wrap, so the sequence below does not.
#[derive(Clone, Copy)]
struct Window {
    bits: u128,
    next: u64,
}

impl Window {
    // Whether the number is fresh; if so it is noted.
    fn insert(&mut self, number: u64) -> bool {
        if let Some(gap) = number.checked_sub(self.next) {
            // right of the window
            self.bits = ((self.bits << 1) | 1).checked_shl(gap.min(u64::from(u32::MAX)) as u32).unwrap_or(0);
            self.next = number + 1;
            return true;
        }
        let behind = self.next - 1 - number;
        if behind == 0 {
            return false;
        }
        if behind > 128 {
            // left of the window
            return false;
        }
        // within the window
        let mask = 1u128 << (behind - 1);
        let fresh = self.bits & mask == 0;
        self.bits |= mask;
        fresh
    }
}

fn plain_run(places: &[usize], numbers: &[u32], judgements: &mut [u8]) {
    let mut windows = [Window { bits: 0, next: 0 }; 32];
    for ((&place, &number), judgement) in places.iter().zip(numbers).zip(judgements) {
        *judgement = match windows.get_mut(place) {
            Some(window) if number <= 0xff_ffff => !window.insert(u64::from(number)) as u8,
            _ => 2,
        };
    }
}

struct Random(u64);

impl Random {
    fn below(&mut self, limit: u64) -> u64 {
        self.0 ^= self.0 << 13;
        self.0 ^= self.0 >> 7;
        self.0 ^= self.0 << 17;
        (self.0 >> 11) % limit
    }
}

// What a line brings: mostly the next number of a neighbour, at times a repeat, one overtaken, or a gap.
fn sequence() -> (Vec<usize>, Vec<u32>) {
    let mut random = Random(0x9e37_79b9_7f4a_7c15);
    let mut newest = [100u32; 32];
    let mut places = Vec::new();
    let mut numbers = Vec::new();
    for _ in 0..LENGTH {
        let place = random.below(32) as usize;
        let number = match random.below(10) {
            0 => newest[place] - random.below(8) as u32,
            1 => newest[place] - random.below(30) as u32,
            2 => newest[place] + 1 + random.below(4) as u32,
            _ => newest[place] + 1,
        };
        newest[place] = newest[place].max(number);
        places.push(place);
        numbers.push(number);
    }
    (places, numbers)
}

// The least time of all rounds, in nanoseconds for each number.
fn least(mut round: impl FnMut()) -> f64 {
    let mut least = f64::MAX;
    for _ in 0..ROUNDS {
        let start = Instant::now();
        round();
        least = least.min(start.elapsed().as_nanos() as f64 / LENGTH as f64);
    }
    least
}

fn main() {
    let (places, numbers) = sequence();
    let mut judgements = vec![9u8; LENGTH];
    let plain = least(|| {
        plain_run(black_box(&places), black_box(&numbers), black_box(&mut judgements));
    });
    let fresh_plain = judgements.iter().filter(|j| **j == 0).count();
    println!("{:<24}{:>10}{:>10}{:>10}", "book", "ns each", "to plain", "fresh");
    println!("{:<24}{:>10.2}{:>10.2}{:>10}", "plain window, 128 bits", plain, 1.0, fresh_plain);
    let mut within = true;
    for (name, run, limit) in [("mask book, depth 64", arrivals_mask_run as Run, 2.0), ("list book, depth 24", arrivals_list_run as Run, f64::MAX)] {
        let cost = least(|| {
            let (places, numbers, judgements) = (black_box(&places), black_box(&numbers), black_box(&mut judgements));
            let count = unsafe { run(places.as_ptr(), places.len(), numbers.as_ptr(), numbers.len(), judgements.as_mut_ptr(), judgements.len()) };
            assert_eq!(count, LENGTH);
        });
        let fresh = judgements.iter().filter(|j| **j == 0).count();
        println!("{:<24}{:>10.2}{:>10.2}{:>10}", name, cost, cost / plain, fresh);
        within &= cost / plain <= limit;
    }
    if !within {
        println!("the mask book is more than twice the plain window");
        std::process::exit(1);
    }
}
