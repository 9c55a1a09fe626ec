// Runs of deliveries to the proved endpoint, through the bridge, and to the peer's: each opens an endpoint that gives the number 0 first and
// has 32 neighbours, delivers datagrams to it at the time 0, and writes how each is answered. A module of peer/numbers.rs and bench/endpoint.rs.

// Its calls but for open, enrol and arrive are not made here.
#[allow(dead_code)]
#[path = "endpoint.rs"]
mod endpoint;

use endpoint::{Arrival, Book, Endpoint, LONGEST_DATAGRAM, PLACES, Peer, Refusal, Role};

unsafe extern "C" {
    fn endpoint_mask_run(senders: *const u8, senders_len: usize, sizes: *const usize, sizes_len: usize, octets: *const u8, octets_len: usize, answers: *mut u8, answers_len: usize) -> usize;
}

/// Datagrams end to end, with the size and the sender of each.
#[derive(Default)]
pub struct Deliveries {
    pub senders: Vec<u8>,
    pub sizes: Vec<usize>,
    pub octets: Vec<u8>,
}

impl Deliveries {
    pub fn push(&mut self, sender: u8, datagram: &[u8]) {
        self.senders.push(sender);
        self.sizes.push(datagram.len());
        self.octets.extend(datagram);
    }
}

/// Answers how many datagrams were delivered.
pub fn proved_run(deliveries: &Deliveries, answers: &mut [u8]) -> usize {
    let Deliveries { senders, sizes, octets } = deliveries;
    // Slices of the lengths that are passed, of which the bridge writes the last alone.
    unsafe { endpoint_mask_run(senders.as_ptr(), senders.len(), sizes.as_ptr(), sizes.len(), octets.as_ptr(), octets.len(), answers.as_mut_ptr(), answers.len()) }
}

fn neighbour(number: u8) -> Peer {
    Peer { address: [10, 0, 0, number], port: 1720 }
}

fn code(answer: Result<Arrival, Refusal>) -> u8 {
    match answer {
        Ok(Arrival { fresh: true, .. }) => 0,
        Ok(Arrival { fresh: false, .. }) => 1,
        Err(refusal) => refusal.number as u8,
    }
}

fn surrounded() -> Endpoint {
    let mut endpoint = Endpoint::open(0, Book::Mask).expect("0 is a number");
    for place in 0..PLACES {
        endpoint.enrol(place, 0, neighbour(place as u8), Role::Slave).expect("the place is vacant");
    }
    endpoint
}

/// The same of the peer. The octets have to hold every datagram whole.
pub fn peer_run(deliveries: &Deliveries, answers: &mut [u8]) -> usize {
    let mut endpoint = surrounded();
    let mut output = [0; LONGEST_DATAGRAM];
    let mut rest = &deliveries.octets[..];
    let mut count = 0;
    for ((&sender, &size), answer) in deliveries.senders.iter().zip(&deliveries.sizes).zip(answers) {
        let (datagram, later) = rest.split_at(size);
        *answer = code(endpoint.arrive(0, neighbour(sender), datagram, &mut output));
        rest = later;
        count += 1;
    }
    count
}
