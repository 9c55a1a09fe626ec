// What becomes of an endpoint that has given all its numbers: question 12 refuses what would need one more, and nothing before it.
// Prints one line and ends with status 0, or prints the first wrong answer and ends with status 1.
mod deliveries;

use deliveries::{Deliveries, peer_run, proved_run};
use std::process::exit;
use std::time::{Duration, Instant};

// Half of all numbers.
const MOST_GIVEN: u32 = 8_388_608;

const FRESH: u8 = 0;
const NUMBERS_SPENT: u8 = 12;
const SENDER: u8 = 7;

// A datagram with one I-Am-Alive that wants a reply and has no cookie.
fn asking(number: u32) -> [u8; 14] {
    let [_, n2, n1, n0] = number.to_be_bytes();
    [0, n2, n1, n0, 0, 3 << 1, 0, 0, 0, 4, 0, 0, 0, 1]
}

// As many as there are numbers for replies, and then one more.
fn one_too_many() -> Deliveries {
    let mut deliveries = Deliveries::default();
    for number in 0..=MOST_GIVEN {
        deliveries.push(SENDER, &asking(number));
    }
    deliveries
}

fn check(name: &str, run: fn(&Deliveries, &mut [u8]) -> usize, deliveries: &Deliveries) -> Duration {
    let most = MOST_GIVEN as usize;
    let mut answers = vec![99; most + 1];
    let start = Instant::now();
    let count = run(deliveries, &mut answers);
    let elapsed = start.elapsed();
    if count != answers.len() {
        println!("numbers: {name} took {count} datagrams of {}", answers.len());
        exit(1);
    }
    if let Some(i) = answers[..most].iter().position(|answer| *answer != FRESH) {
        println!("numbers: {name} answers datagram {i} with {}, and not with {FRESH}", answers[i]);
        exit(1);
    }
    if answers[most] != NUMBERS_SPENT {
        println!("numbers: {name} answers the last datagram with {}, and not with {NUMBERS_SPENT}", answers[most]);
        exit(1);
    }
    elapsed
}

fn main() {
    let deliveries = one_too_many();
    let ours = check("the endpoint", proved_run, &deliveries);
    let theirs = check("the peer", peer_run, &deliveries);
    println!("numbers: {MOST_GIVEN} datagrams are replied to, and one more is refused by {NUMBERS_SPENT}: the endpoint in {:.2} s, the peer in {:.2} s", ours.as_secs_f64(), theirs.as_secs_f64());
}
