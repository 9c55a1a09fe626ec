// Two endpoints and the log of what each call wrote, after docs/REHEARSAL.md. A module: peer/rehearse.rs plays a script
// on it, and peer/scripts.rs makes scripts up beside it.

use super::endpoint::{Arrival, Book, Endpoint, LONGEST_DATAGRAM, Layer, Outcome, Peer, Refusal, Role, Ticked, Written};

#[derive(Clone, Copy, Debug, PartialEq, Eq)]
pub enum Side {
    Left,
    Right,
}

impl Side {
    pub fn word(self) -> &'static str {
        match self {
            Side::Left => "left",
            Side::Right => "right",
        }
    }
}

#[derive(Clone, Copy)]
pub struct SetUp {
    pub peer: Peer,
    pub start: u64,
    pub book: Book,
}

#[derive(Clone)]
pub enum Call {
    Enrol { place: u64, time: u64, peer: Peer, role: Role },
    Send { place: u64, time: u64, ack_wanted: bool, body: Vec<u8>, room: u64 },
    Tick { place: u64, time: u64, room: u64 },
    Arrive { time: u64, entry: u64, room: u64 },
    Hear { time: u64, peer: Peer, octets: Vec<u8>, room: u64 },
}

impl Call {
    pub fn word(&self) -> &'static str {
        match self {
            Call::Enrol { .. } => "enrol",
            Call::Send { .. } => "send",
            Call::Tick { .. } => "tick",
            Call::Arrive { .. } => "arrive",
            Call::Hear { .. } => "hear",
        }
    }
}

/// What the closing line of one side says.
#[derive(Clone, Copy, Default)]
pub struct Tally {
    pub sent: usize,
    pub resent: usize,
    pub handed: usize,
    pub acknowledged: usize,
    pub rejected: usize,
    pub unanswered: usize,
}

struct End {
    peer: Peer,
    endpoint: Endpoint,
    tally: Tally,
}

/// What is kept of a call: whose it was, and the datagram that it wrote for the other end.
pub struct Entry {
    pub side: Side,
    pub for_other: Option<Vec<u8>>,
}

pub struct Stage {
    left: End,
    right: End,
    pub log: Vec<Entry>,
}

/// Why a call cannot be part of a script at all.
pub type Stray = &'static str;

/// What an accepted or refused call comes to: its words, and the datagram that it wrote, if it is for the other end.
struct Made {
    words: String,
    for_other: Option<Vec<u8>>,
}

impl Stage {
    /// Sets up both ends; where open refuses a start number, the answer is the side that it was for.
    pub fn open(left: SetUp, right: SetUp) -> Result<Stage, Side> {
        Ok(Stage {
            left: End::open(left).map_err(|_| Side::Left)?,
            right: End::open(right).map_err(|_| Side::Right)?,
            log: Vec::new(),
        })
    }

    pub fn tally(&self, side: Side) -> Tally {
        match side {
            Side::Left => self.left.tally,
            Side::Right => self.right.tally,
        }
    }

    /// Makes one call and logs it. The answer is in the words of a transcript.
    pub fn call(&mut self, side: Side, call: &Call) -> Result<String, Stray> {
        let log = &self.log;
        let (end, other) = match side {
            Side::Left => (&mut self.left, &mut self.right),
            Side::Right => (&mut self.right, &mut self.left),
        };
        let made = match call {
            Call::Enrol { place, time, peer, role } => end.enrol(*place, *time, *peer, *role),
            Call::Send { place, time, ack_wanted, body, room } => {
                end.send(other, *place, *time, *ack_wanted, body, *room)
            }
            Call::Tick { place, time, room } => end.tick(other, *place, *time, *room),
            Call::Arrive { time, entry, room } => {
                let datagram = written_for(log, side, *entry)?;
                end.arrive(other, *time, datagram, *room)
            }
            Call::Hear { peer, .. } if *peer == other.peer => return Err("hear under the address of the other end"),
            Call::Hear { time, peer, octets, room } => end.hear(*time, *peer, octets, *room),
        };
        let Made { words, for_other } = made.unwrap_or_else(|refusal| refused(&refusal));
        self.log.push(Entry { side, for_other });
        Ok(words)
    }
}

impl End {
    fn open(set_up: SetUp) -> Result<End, Refusal> {
        let endpoint = Endpoint::open(set_up.start, set_up.book)?;
        Ok(End { peer: set_up.peer, endpoint, tally: Tally::default() })
    }

    /// Whether a place is the one at which this end has the other.
    fn is_for(&self, other: &End, place: u64) -> bool {
        self.endpoint.place_of(other.peer).is_some_and(|held| held as u64 == place)
    }

    fn enrol(&mut self, place: u64, time: u64, peer: Peer, role: Role) -> Result<Made, Refusal> {
        self.endpoint.enrol(place as usize, time, peer, role)?;
        Ok(Made { words: "enrolled".into(), for_other: None })
    }

    fn send(&mut self, other: &End, place: u64, time: u64, ack: bool, body: &[u8], room: u64) -> Result<Made, Refusal> {
        let mut out = buffer(room);
        let written = self.endpoint.send(place as usize, time, ack, body, &mut out)?;
        let for_other = self.is_for(other, place);
        self.tally.sent += usize::from(for_other);
        let words = format!("sent {}", told(&written, &out));
        Ok(Made { words, for_other: for_other.then(|| octets(&written, &out)) })
    }

    fn tick(&mut self, other: &End, place: u64, time: u64, room: u64) -> Result<Made, Refusal> {
        let mut out = buffer(room);
        let ticked = self.endpoint.tick(place as usize, time, &mut out)?;
        let for_other = self.is_for(other, place);
        let (words, written) = match ticked {
            Ticked::Resent(written) => (format!("resent {}", told(&written, &out)), Some(written)),
            Ticked::Unanswered(number) => (format!("unanswered {number}"), None),
            Ticked::Silent => ("silent".into(), None),
            Ticked::KeptAlive(written) => (format!("alive {}", told(&written, &out)), Some(written)),
            Ticked::Idle => ("idle".into(), None),
        };
        if for_other {
            self.tally.resent += usize::from(matches!(ticked, Ticked::Resent(_)));
            self.tally.unanswered += usize::from(matches!(ticked, Ticked::Unanswered(_)));
        }
        let for_other = written.filter(|_| for_other).map(|written| octets(&written, &out));
        Ok(Made { words, for_other })
    }

    fn arrive(&mut self, other: &mut End, time: u64, datagram: &[u8], room: u64) -> Result<Made, Refusal> {
        let mut out = buffer(room);
        let arrival = self.endpoint.arrive(time, other.peer, datagram, &mut out)?;
        other.tally.handed += usize::from(!arrival.payloads.is_empty());
        match arrival.settled {
            Some((_, Outcome::Acknowledged)) => self.tally.acknowledged += 1,
            Some((_, Outcome::Rejected(_))) => self.tally.rejected += 1,
            None => {}
        }
        let for_other = arrival.reply.map(|written| octets(&written, &out));
        Ok(Made { words: arrived(&arrival, &out), for_other })
    }

    fn hear(&mut self, time: u64, peer: Peer, datagram: &[u8], room: u64) -> Result<Made, Refusal> {
        let mut out = buffer(room);
        let arrival = self.endpoint.arrive(time, peer, datagram, &mut out)?;
        Ok(Made { words: arrived(&arrival, &out), for_other: None })
    }
}

/// The datagram that a call wrote for the end of a side.
fn written_for(log: &[Entry], side: Side, entry: u64) -> Result<&[u8], Stray> {
    let index = usize::try_from(entry - 1).unwrap_or(usize::MAX);
    let entry = log.get(index).ok_or("arrive of a call that is not earlier")?;
    if entry.side == side {
        return Err("arrive of a call of the same end");
    }
    entry.for_other.as_deref().ok_or("arrive of a call that wrote nothing for this end")
}

/// The output buffer of a call. Nothing longer than a datagram is ever written, so more room than that is not laid out.
fn buffer(room: u64) -> Vec<u8> {
    vec![0; room.min(LONGEST_DATAGRAM as u64) as usize]
}

fn octets(written: &Written, out: &[u8]) -> Vec<u8> {
    out[..written.size].to_vec()
}

pub fn hex(octets: &[u8]) -> String {
    if octets.is_empty() {
        return "-".into();
    }
    octets.iter().map(|octet| format!("{octet:02x}")).collect()
}

fn told(written: &Written, out: &[u8]) -> String {
    format!("{} {}", written.number, hex(&out[..written.size]))
}

fn arrived(arrival: &Arrival, out: &[u8]) -> String {
    let mut words = String::from(if arrival.fresh { "fresh" } else { "again" });
    for payload in &arrival.payloads {
        words += &format!(" payload {} {} {}", payload.kind, payload.call, hex(payload.data));
    }
    match arrival.settled {
        Some((number, Outcome::Acknowledged)) => words += &format!(" acknowledged {number}"),
        Some((number, Outcome::Rejected(reason))) => words += &format!(" rejected {number} {reason}"),
        None => {}
    }
    if let Some(written) = &arrival.reply {
        words += &format!(" reply {}", told(written, out));
    }
    words
}

fn refused(refusal: &Refusal) -> Made {
    let layer = match refusal.layer {
        Layer::Datagram => "datagram",
        Layer::Payload => "payload",
        Layer::Structure => "structure",
        Layer::End => "end",
    };
    let words = format!("refused {} {layer} {}", refusal.number, refusal.offset);
    Made { words, for_other: None }
}
