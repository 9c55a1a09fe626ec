// The cost of an arrival at the endpoint over the mask book, through the bridge, beside the peer's endpoint, on one sequence.
#[path = "../peer/deliveries.rs"]
mod deliveries;

use deliveries::{Deliveries, peer_run, proved_run};
use std::hint::black_box;
use std::process::exit;
use std::time::Instant;

const LENGTH: usize = 200_000;
const ROUNDS: usize = 25;
const MOST: f64 = 2.0;

const MESSAGE: u8 = 1;
const ALIVE: u8 = 3;
const ACK: u8 = 4;
const NON_STANDARD: u8 = 6;
const UNSUPPORTED: u8 = 9;

struct Random(u64);

impl Random {
    fn next(&mut self) -> u64 {
        self.0 ^= self.0 << 13;
        self.0 ^= self.0 >> 7;
        self.0 ^= self.0 << 17;
        self.0 >> 11
    }

    fn below(&mut self, limit: usize) -> usize {
        (self.next() % limit as u64) as usize
    }

    fn octets(&mut self, count: usize) -> Vec<u8> {
        (0..count).map(|_| self.next() as u8).collect()
    }
}

fn payload(kind: u8, data: &[u8]) -> Vec<u8> {
    let mut octets = vec![kind << 1, 0, 1];
    octets.extend((data.len() as u16).to_be_bytes());
    octets.extend(data);
    octets
}

fn datagram(number: u32, wants_ack: bool, payloads: &[Vec<u8>]) -> Vec<u8> {
    let [_, n2, n1, n0] = number.to_be_bytes();
    let mut octets = vec![wants_ack as u8, n2, n1, n0, payloads.len() as u8 - 1];
    octets.extend(payloads.concat());
    octets
}

// One that wants a reply and has a cookie of eight octets.
fn alive(random: &mut Random) -> Vec<u8> {
    let mut data = vec![0, 0, 0, 8 << 1 | 1];
    data.extend(random.octets(8));
    payload(ALIVE, &data)
}

fn ack(random: &mut Random) -> Vec<u8> {
    let mut data = vec![1 << 1];
    data.extend(random.octets(3));
    payload(ACK, &data)
}

fn message(random: &mut Random) -> Vec<u8> {
    let size = 40 + random.below(260);
    payload(MESSAGE, &random.octets(size))
}

fn non_standard(random: &mut Random) -> Vec<u8> {
    let mut data = vec![0, 6];
    data.extend(random.octets(20));
    payload(NON_STANDARD, &data)
}

// What a neighbour sends: its next number, the numbers that were overtaken, and the datagram before.
struct Neighbour {
    next: u32,
    overtaken: Vec<u32>,
    last: Vec<u8>,
}

impl Neighbour {
    fn give(&mut self) -> u32 {
        self.next += 1;
        self.next - 1
    }

    // A number that was overtaken, if there is one.
    fn late(&mut self) -> u32 {
        self.overtaken.pop().unwrap_or_else(|| self.give())
    }

    fn send(&mut self, random: &mut Random) -> Vec<u8> {
        match random.below(100) {
            0..70 => datagram(self.give(), true, &[message(random)]),
            70..77 => datagram(self.give(), true, &[message(random), non_standard(random)]),
            77..80 => {
                let overtaken = self.give();
                self.overtaken.push(overtaken);
                datagram(self.give(), true, &[message(random)])
            }
            80..83 => datagram(self.late(), true, &[message(random)]),
            83..88 => self.last.clone(),
            88..93 => datagram(self.give(), false, &[ack(random)]),
            93..97 => datagram(self.give(), false, &[alive(random)]),
            97 => datagram(self.give(), true, &[payload(UNSUPPORTED, &[1, 2, 3])]),
            98 => datagram(self.next.saturating_sub(200), true, &[message(random)]),
            _ => {
                let whole = datagram(self.next, true, &[message(random)]);
                whole[..random.below(whole.len())].to_vec()
            }
        }
    }
}

// What a busy trunk brings: mostly call messages that want an Ack, under growing numbers; at times two payloads, one that is overtaken,
// a repeat, an Ack, an I-Am-Alive, a type that is not supported, a number too old, a datagram that is cut short, an unknown sender.
fn sequence() -> Deliveries {
    let mut random = Random(0x9e37_79b9_7f4a_7c15);
    let mut neighbours: Vec<Neighbour> = (0..32).map(|place| Neighbour { next: 1_000 * place, overtaken: Vec::new(), last: Vec::new() }).collect();
    let mut deliveries = Deliveries::default();
    for _ in 0..LENGTH {
        let place = random.below(32);
        let sent = neighbours[place].send(&mut random);
        let sender = if random.below(500) == 0 { 32 + place } else { place };
        deliveries.push(sender as u8, &sent);
        neighbours[place].last = sent;
    }
    deliveries
}

type Run = fn(&Deliveries, &mut [u8]) -> usize;

fn nanoseconds(run: Run, deliveries: &Deliveries, answers: &mut [u8]) -> f64 {
    let start = Instant::now();
    let count = run(black_box(deliveries), black_box(answers));
    let elapsed = start.elapsed();
    assert_eq!(count, LENGTH);
    elapsed.as_nanos() as f64 / LENGTH as f64
}

// How often each answer was given.
fn tell(answers: &[u8]) {
    let mut counts = [0usize; 256];
    for &answer in answers {
        counts[usize::from(answer)] += 1;
    }
    let refused: Vec<String> = (2..256).filter(|code| counts[*code] > 0).map(|code| format!("{} by {code}", counts[code])).collect();
    println!("fresh {}, again {}, refused {}", counts[0], counts[1], refused.join(", "));
}

fn main() {
    let deliveries = sequence();
    let mut ours = vec![99; LENGTH];
    let mut theirs = vec![99; LENGTH];
    proved_run(&deliveries, &mut ours);
    peer_run(&deliveries, &mut theirs);
    if let Some(i) = (0..LENGTH).find(|i| ours[*i] != theirs[*i]) {
        println!("bench: datagram {i}: the endpoint answers {}, the peer {}", ours[i], theirs[i]);
        exit(1);
    }
    println!("{LENGTH} datagrams of {} octets, 32 places held", deliveries.octets.len());
    tell(&ours);
    let mut least = [f64::MAX; 2];
    for _ in 0..ROUNDS {
        least[0] = least[0].min(nanoseconds(proved_run, &deliveries, &mut ours));
        least[1] = least[1].min(nanoseconds(peer_run, &deliveries, &mut theirs));
    }
    println!("{:<24}{:>10}{:>20}{:>10}", "endpoint", "ns each", "arrivals a second", "to peer");
    for (name, cost) in [("proved, mask book", least[0]), ("peer", least[1])] {
        println!("{:<24}{:>10.1}{:>20.0}{:>10.2}", name, cost, 1e9 / cost, cost / least[1]);
    }
    if least[0] > MOST * least[1] {
        println!("bench: the proved endpoint takes more than twice the peer's time");
        exit(1);
    }
}
