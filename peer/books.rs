// Compares both arrival books, through the bridge, with a plain set of noted numbers, on random numbers from fixed seeds.
// Prints one line and ends with status 0, or prints the first difference and ends with status 1.
use std::collections::BTreeSet;
use std::process::exit;

type Run = unsafe extern "C" fn(*const usize, usize, *const u32, usize, *mut u8, usize) -> usize;

unsafe extern "C" {
    fn arrivals_mask_run(places: *const usize, places_len: usize, numbers: *const u32, numbers_len: usize, judgements: *mut u8, judgements_len: usize) -> usize;
    fn arrivals_list_run(places: *const usize, places_len: usize, numbers: *const u32, numbers_len: usize, judgements: *mut u8, judgements_len: usize) -> usize;
}

const FRESH: u8 = 0;
const AGAIN: u8 = 1;
const OLD: u8 = 2;

const NUMBERS: i64 = 16_777_216;
const HALF: i64 = 8_388_607;
const SEEDS: u64 = 10;
const LENGTH: usize = 100_000;
// Octets past the run's length, which it has to leave alone.
const SPARE: usize = 3;
const UNTOUCHED: u8 = 77;

// What one place has seen, as plainly as can be: the newest number, and the set of the noted ones.
#[derive(Clone, Default)]
struct Place {
    newest: Option<i64>,
    noted: BTreeSet<i64>,
}

// How far n is behind h, or None if it is not behind.
fn behind(n: i64, h: i64) -> Option<i64> {
    let up = (n - h).rem_euclid(NUMBERS);
    if n == h || (1..=HALF).contains(&up) { None } else { Some((h - n).rem_euclid(NUMBERS)) }
}

fn is_ahead(n: i64, h: i64) -> bool {
    (1..=HALF).contains(&(n - h).rem_euclid(NUMBERS))
}

struct Book {
    depth: i64,
    places: Vec<Place>,
}

impl Book {
    fn new(depth: i64) -> Book {
        Book { depth, places: vec![Place::default(); 32] }
    }

    fn judge(&self, place: usize, n: i64) -> u8 {
        if place > 31 || n >= NUMBERS {
            return OLD;
        }
        let Place { newest, noted } = &self.places[place];
        let Some(h) = *newest else { return FRESH };
        let near = behind(n, h).is_some_and(|by| by < self.depth);
        if is_ahead(n, h) || (near && !noted.contains(&n)) {
            FRESH
        } else if noted.contains(&n) {
            AGAIN
        } else {
            OLD
        }
    }

    // Notes a fresh number.
    fn note(&mut self, place: usize, n: i64) {
        let depth = self.depth;
        let Place { newest, noted } = &mut self.places[place];
        if newest.is_none_or(|h| is_ahead(n, h)) {
            *newest = Some(n);
            noted.retain(|k| behind(*k, n).is_some_and(|by| by < depth));
        }
        noted.insert(n);
    }
}

struct Random(u64);

impl Random {
    fn next(&mut self) -> u64 {
        self.0 ^= self.0 << 13;
        self.0 ^= self.0 >> 7;
        self.0 ^= self.0 << 17;
        self.0.wrapping_mul(0x2545_f491_4f6c_dd1d)
    }

    fn below(&mut self, limit: i64) -> i64 {
        (self.next() >> 16) as i64 % limit
    }
}

// How often the comparison stood right at an edge. Each has to be met, or the comparison shows too little.
#[derive(Default)]
struct Edges {
    last_within_depth: u64,
    first_past_depth: u64,
    last_ahead: u64,
    first_not_ahead: u64,
    wraps: u64,
    repeats: u64,
    places_out: u64,
    numbers_out: u64,
}

impl Edges {
    fn count(&mut self, depth: i64, seen: Option<&Place>, n: i64, judgement: u8) {
        self.numbers_out += u64::from(n >= NUMBERS);
        let Some(place) = seen else {
            self.places_out += 1;
            return;
        };
        let Some(h) = place.newest else { return };
        let up = (n - h).rem_euclid(NUMBERS);
        self.last_ahead += u64::from(n < NUMBERS && up == HALF);
        self.first_not_ahead += u64::from(n < NUMBERS && up == HALF + 1);
        self.last_within_depth += u64::from(judgement == FRESH && behind(n, h) == Some(depth - 1));
        self.first_past_depth += u64::from(n < NUMBERS && behind(n, h) == Some(depth));
        self.wraps += u64::from(judgement == FRESH && is_ahead(n, h) && n < h);
        self.repeats += u64::from(judgement == AGAIN);
    }

    fn all_met(&self) -> bool {
        [self.last_within_depth, self.first_past_depth, self.last_ahead, self.first_not_ahead, self.wraps, self.repeats, self.places_out, self.numbers_out]
            .iter()
            .all(|met| *met >= 100)
    }
}

// A number near an edge of what a place has seen, or anywhere.
fn number(random: &mut Random, depth: i64, newest: Option<i64>, last: &[i64]) -> i64 {
    let h = newest.unwrap_or(random.below(2) * (NUMBERS - 1));
    let around = random.below(3) - 1;
    let n = match random.below(100) {
        0..40 => h + 1 + random.below(3),
        40..55 => h - random.below(depth + 2),
        55..65 => h - depth + around,
        65..80 if !last.is_empty() => last[random.below(last.len() as i64) as usize],
        65..90 => h + around,
        90..92 => h + HALF + around,
        92..94 => h + HALF + 1 + around,
        94..96 => NUMBERS + around,
        96 => random.below(NUMBERS),
        97 => return NUMBERS + random.below(3),
        98 => return random.next() as u32 as i64,
        _ => return u32::MAX as i64 - random.below(2),
    };
    n.rem_euclid(NUMBERS)
}

fn place(random: &mut Random) -> usize {
    match random.below(100) {
        0..60 => random.below(4) as usize,
        60..97 => random.below(32) as usize,
        97 => 32,
        98 => 31,
        _ => random.next() as usize,
    }
}

// Runs the bridge over one sequence, and compares every judgement with the plain book's.
fn compare(name: &str, run: Run, depth: i64, seed: u64, edges: &mut Edges) {
    let mut random = Random(seed.wrapping_mul(0x9e37_79b9_7f4a_7c15) | 1);
    let mut book = Book::new(depth);
    let (mut places, mut numbers, mut expected, mut last) = (Vec::new(), Vec::new(), Vec::new(), Vec::new());
    for _ in 0..LENGTH {
        let p = place(&mut random);
        let n = number(&mut random, depth, book.places.get(p).and_then(|seen| seen.newest), &last);
        let judgement = book.judge(p, n);
        edges.count(depth, book.places.get(p), n, judgement);
        if judgement == FRESH {
            book.note(p, n);
            last.push(n);
        }
        if last.len() > 50 {
            last.remove(0);
        }
        places.push(p);
        numbers.push(n as u32);
        expected.push(judgement);
    }
    expected.extend([UNTOUCHED; SPARE]);
    let mut judgements = vec![UNTOUCHED; LENGTH + SPARE];
    let count = unsafe { run(places.as_ptr(), places.len(), numbers.as_ptr(), numbers.len(), judgements.as_mut_ptr(), judgements.len()) };
    if count != LENGTH {
        println!("books: the {name} book judged {count} numbers of {LENGTH}");
        exit(1);
    }
    if let Some(i) = (0..LENGTH + SPARE).find(|i| judgements[*i] != expected[*i]) {
        println!("books: seed {seed}, call {i}: place {:?}, number {:?}: the {name} book says {}, the plain book {}", places.get(i), numbers.get(i), judgements[i], expected[i]);
        exit(1);
    }
}

fn main() {
    let mut edges = Edges::default();
    for seed in 1..=SEEDS {
        compare("mask", arrivals_mask_run, 64, seed, &mut edges);
        compare("list", arrivals_list_run, 24, seed, &mut edges);
    }
    println!(
        "books: {} judgements of each book as the plain book's; at the edges: depth {} and {}, half {} and {}, wraps {}, repeats {}, places out of range {}, numbers out of range {}",
        SEEDS as usize * LENGTH,
        edges.last_within_depth,
        edges.first_past_depth,
        edges.last_ahead,
        edges.first_not_ahead,
        edges.wraps,
        edges.repeats,
        edges.places_out,
        edges.numbers_out,
    );
    if !edges.all_met() {
        println!("books: an edge was met less than 100 times");
        exit(1);
    }
}
