// Writes scripts of calls for the two rehearsal programs to be compared on, always the same ones: every script has its
// own fixed seed. Two endpoints run beside the making, so that a script knows what was written and what is on the line.
//
// Usage: scripts OUTDIR
// Build: rustc --edition 2024 -O peer/scripts.rs

mod endpoint;
mod stage;

use endpoint::{Book, LATEST_TIME, LONGEST_BODY, LONGEST_DATAGRAM, NUMBERS, Peer, Role};
use stage::{Call, SetUp, Side, Stage, Tally, hex};
use std::fs;
use std::io;
use std::path::Path;
use std::process::ExitCode;

const RUNS: u64 = 400;
const SPOILT: u64 = 400;
const USUAL_ROOM: u64 = 1_024;

const MESSAGE: u8 = 1;
const ALIVE: u8 = 3;
const ACK: u8 = 4;
const NACK: u8 = 5;
const NON_STANDARD: u8 = 6;

// ---------------------------------------------------------------------------------------------
// Chance, always the same

/// xorshift64*.
struct Random(u64);

impl Random {
    fn of_seed(seed: u64) -> Random {
        Random(seed.wrapping_mul(0x9e37_79b9_7f4a_7c15) | 1)
    }

    fn next(&mut self) -> u64 {
        self.0 ^= self.0 << 13;
        self.0 ^= self.0 >> 7;
        self.0 ^= self.0 << 17;
        self.0.wrapping_mul(0x2545_f491_4f6c_dd1d) >> 8
    }

    fn below(&mut self, limit: u64) -> u64 {
        self.next() % limit
    }

    /// One of low ..= high.
    fn between(&mut self, low: usize, high: usize) -> usize {
        low + self.below((high - low + 1) as u64) as usize
    }

    fn percent(&mut self, share: u64) -> bool {
        self.below(100) < share
    }

    fn index(&mut self, length: usize) -> usize {
        self.below(length as u64) as usize
    }

    fn pick<T: Copy>(&mut self, from: &[T]) -> T {
        from[self.index(from.len())]
    }

    fn octets(&mut self, length: usize) -> Vec<u8> {
        (0..length).map(|_| self.next() as u8).collect()
    }
}

// ---------------------------------------------------------------------------------------------
// Datagrams and bodies

fn payload(kind: u8, reserved: u8, call: u16, data: &[u8]) -> Vec<u8> {
    let mut octets = vec![kind << 1 | reserved];
    octets.extend(call.to_be_bytes());
    octets.extend((data.len() as u16).to_be_bytes());
    octets.extend(data);
    octets
}

fn datagram(first: u8, number: u32, payloads: &[Vec<u8>]) -> Vec<u8> {
    let mut octets = vec![first];
    octets.extend(&number.to_be_bytes()[1..]);
    octets.push(payloads.len().wrapping_sub(1) as u8);
    octets.extend(payloads.concat());
    octets
}

fn alive(validity: u16, cookie: &[u8], reply_wanted: u16) -> Vec<u8> {
    let mut data = validity.to_be_bytes().to_vec();
    data.extend(((cookie.len() as u16) << 1 | reply_wanted).to_be_bytes());
    data.extend(cookie);
    data
}

fn ack(reserved: u8, numbers: &[u32]) -> Vec<u8> {
    let mut data = vec![(numbers.len() as u8) << 1 | reserved];
    for number in numbers {
        data.extend(&number.to_be_bytes()[1..]);
    }
    data
}

fn nack(random: &mut Random, numbers: &[u32]) -> Vec<u8> {
    let mut data = vec![(numbers.len() as u8) << 1];
    for number in numbers {
        data.extend(&number.to_be_bytes()[1..]);
        data.extend((random.below(4) as u16 * 400).to_be_bytes());
        let length = random.pick(&[0, 0, 1, 5]);
        data.push(length as u8);
        data.extend(random.octets(length));
    }
    data
}

fn non_standard(random: &mut Random, most: usize) -> Vec<u8> {
    let oid = random.between(0, most.min(12));
    let free = random.between(0, most.min(20));
    let mut data = (oid as u16).to_be_bytes().to_vec();
    data.extend(random.octets(oid));
    data.extend(random.octets(free));
    data
}

/// A payload of type 1 or 6.
fn spoken(random: &mut Random) -> Vec<u8> {
    let call = random.below(3) as u16 * 32_767;
    if random.percent(25) {
        let data = non_standard(random, 12);
        return payload(NON_STANDARD, 0, call, &data);
    }
    let length = random.pick(&[0, 1, 2, 2, 3, 7, 20]);
    payload(MESSAGE, 0, call, &random.octets(length))
}

/// A body of exactly so many octets, of one or two payloads.
fn body_of(random: &mut Random, length: usize) -> Vec<u8> {
    if length < 10 || random.percent(50) {
        let data = random.octets(length.saturating_sub(5));
        return payload(MESSAGE, 0, 9, &data);
    }
    let first = random.between(0, length - 10);
    let second = length - 10 - first;
    let (first, second) = (random.octets(first), random.octets(second));
    [payload(MESSAGE, 0, 1, &first), payload(MESSAGE, 0, 2, &second)].concat()
}

fn good_body(random: &mut Random) -> Vec<u8> {
    if random.percent(3) {
        return body_of(random, LONGEST_BODY);
    }
    (0..random.pick(&[1, 1, 1, 2, 3, 6])).flat_map(|_| spoken(random)).collect()
}

/// A body that is refused: by its size, as no payloads, or as not only messages.
fn bad_body(random: &mut Random) -> Vec<u8> {
    let mut body = good_body(random);
    match random.below(9) {
        0 => return Vec::new(),
        1 => return body_of(random, LONGEST_BODY + 1),
        2 => body[0] |= 1,
        3 => body.truncate(random.between(1, body.len())),
        4 => body.extend(payload(random.pick(&[0, 2, 7, 127]), 0, 0, &[1])),
        5 => body.extend(payload(ALIVE, 0, 0, &alive(0, &[7], 1))),
        6 => body.extend(broken_payload(random)),
        7 => body.extend(payload(ACK, 0, 0, &ack(0, &[1, 2]))),
        _ => return random.octets(12),
    }
    body
}

/// A payload whose structure is not sound.
fn broken_payload(random: &mut Random) -> Vec<u8> {
    let number = random.below(u64::from(NUMBERS)) as u32;
    let (kind, mut data) = match random.below(4) {
        0 => (ALIVE, alive(3, &[1, 2, 3], 1)),
        1 => (ACK, ack(0, &[number, 5])),
        2 => (NACK, nack(random, &[number, 6])),
        _ => (NON_STANDARD, vec![0, 2, 3, 4]),
    };
    match random.below(4) {
        0 => data.clear(),
        1 => data.truncate(random.index(data.len())),
        2 if kind != NON_STANDARD => data.push(0),
        _ => data[if kind == ALIVE { 3 } else if kind == NON_STANDARD { 1 } else { 0 }] += 2,
    }
    payload(kind, 0, 0, &data)
}

/// Payloads of which the reply has exactly `size` octets, or nearly: I-Am-Alives of many lengths that want a reply.
fn alives_for_reply(random: &mut Random, size: usize, before: Vec<Vec<u8>>, taken: usize) -> Vec<Vec<u8>> {
    let mut left = size - 5 - taken;
    let mut payloads = before;
    let longest = random.pick(&[0, 10, 300, 2_000]);
    while left >= 9 {
        let mut cookie = random.between(0, longest.min(left - 9));
        if left - 9 - cookie < 9 {
            cookie = left - 9;
        }
        left -= 9 + cookie;
        let at = random.between(0, payloads.len());
        payloads.insert(at, payload(ALIVE, 0, 3, &alive(5, &random.octets(cookie), 1)));
    }
    payloads
}

// ---------------------------------------------------------------------------------------------
// Lines

/// How a number or a line may be written besides the plain way.
struct Writing<'a> {
    random: &'a mut Random,
    /// How many words of a hundred are written in an unusual way.
    odd: u64,
}

impl Writing<'_> {
    fn number(&mut self, number: u64) -> String {
        if !self.random.percent(self.odd) {
            return number.to_string();
        }
        let zeros = self.random.pick(&[1, 2, 25]);
        format!("{}{number}", "0".repeat(zeros))
    }

    fn peer(&mut self, peer: Peer) -> String {
        let parts: Vec<String> = peer.address.iter().map(|part| self.number(u64::from(*part))).collect();
        format!("{}:{}", parts.join("."), self.number(u64::from(peer.port)))
    }

    fn octets(&mut self, octets: &[u8]) -> String {
        let digits = hex(octets);
        if self.random.percent(self.odd) { digits.to_uppercase() } else { digits }
    }

    fn room(&mut self, words: &mut Vec<String>, room: u64) {
        if room != USUAL_ROOM || self.random.percent(5) {
            words.extend(["room".into(), self.number(room)]);
        }
    }

    fn call(&mut self, side: Side, call: &Call) -> String {
        let mut words = vec![side.word().to_string(), call.word().to_string()];
        match call {
            Call::Enrol { place, time, peer, role } => {
                let role = if *role == Role::Master { "master" } else { "slave" };
                words.extend([self.number(*place), self.number(*time), self.peer(*peer), role.into()]);
            }
            Call::Send { place, time, ack_wanted, body, room } => {
                let want = if *ack_wanted { "ack" } else { "plain" };
                words.extend([self.number(*place), self.number(*time), want.into(), self.octets(body)]);
                self.room(&mut words, *room);
            }
            Call::Tick { place, time, room } => {
                words.extend([self.number(*place), self.number(*time)]);
                self.room(&mut words, *room);
            }
            Call::Arrive { time, entry, room } => {
                words.extend([self.number(*time), self.number(*entry)]);
                self.room(&mut words, *room);
            }
            Call::Hear { time, peer, octets, room } => {
                words.extend([self.number(*time), self.peer(*peer), self.octets(octets)]);
                self.room(&mut words, *room);
            }
        }
        self.line(words)
    }

    fn set_up(&mut self, side: Side, set_up: SetUp) -> String {
        let book = if set_up.book == Book::Mask { "mask" } else { "list" };
        let words = vec![side.word().into(), self.peer(set_up.peer), self.number(set_up.start), book.into()];
        self.line(words)
    }

    fn line(&mut self, words: Vec<String>) -> String {
        if !self.random.percent(self.odd) {
            return words.join(" ");
        }
        let mut line = words.join(self.random.pick(&[" ", "  ", "   "]));
        match self.random.below(6) {
            0 => line.insert(0, ' '),
            1 => line.push(' '),
            2 => line.push_str(" # left arrive 1 1"),
            3 => line.push('#'),
            4 => line.insert_str(0, "# nothing\n  \n\n"),
            _ => {}
        }
        line
    }
}

// ---------------------------------------------------------------------------------------------
// A run

/// How a run goes; all are shares of a hundred.
#[derive(Clone, Copy)]
struct Style {
    enrol: u64,
    send: u64,
    tick: u64,
    arrive: u64,
    lost: u64,
    repeated: u64,
    overtaking: u64,
    ack_wanted: u64,
    bad: u64,
    to_stranger: u64,
    /// How often a time is aimed at a timer's edge, and how far the clock runs otherwise.
    aimed: u64,
    step: u64,
}

const CALM: Style = Style {
    enrol: 1,
    send: 30,
    tick: 25,
    arrive: 40,
    lost: 3,
    repeated: 5,
    overtaking: 10,
    ack_wanted: 60,
    bad: 3,
    to_stranger: 5,
    aimed: 40,
    step: 300,
};

/// What a run is about.
fn style(random: &mut Random, seed: u64) -> Style {
    match seed % 8 {
        0 => CALM,
        // A line that loses much: transmissions, giving up, silence.
        1 => Style { tick: 45, lost: 50, arrive: 25, aimed: 70, ..CALM },
        // Many plain messages on the line at once: numbers overtaken by more than the depths.
        2 => Style { send: 50, arrive: 45, tick: 3, lost: 1, overtaking: 60, repeated: 15, ack_wanted: 5, step: 20, ..CALM },
        // Strangers.
        3 => Style { enrol: 3, send: 15, tick: 12, arrive: 10, to_stranger: 70, ..CALM },
        // Keeping alive.
        4 => Style { send: 5, tick: 65, arrive: 20, aimed: 85, to_stranger: 30, ..CALM },
        // Much that is refused.
        5 => Style { enrol: 6, bad: 40, ..CALM },
        // Repeats.
        6 => Style { repeated: 60, arrive: 55, overtaking: 40, ..CALM },
        _ => Style {
            enrol: random.below(5),
            send: 5 + random.below(40),
            tick: 5 + random.below(40),
            arrive: 5 + random.below(40),
            lost: random.below(60),
            repeated: random.below(60),
            overtaking: random.below(100),
            ack_wanted: random.below(101),
            bad: random.below(20),
            to_stranger: random.below(60),
            aimed: random.below(101),
            step: 1 + random.below(5_000),
        },
    }
}

/// A neighbour that is not the other end.
#[derive(Clone, Copy)]
struct Stranger {
    place: u64,
    peer: Peer,
    newest: u32,
    /// The last message that was sent to it with an Ack wanted.
    awaited: Option<u32>,
}

/// What a run knows of one end.
struct Known {
    peer: Peer,
    place: u64,
    enrolled: bool,
    clock: u64,
    /// Times at which something was accepted, of which timers may count.
    moments: Vec<u64>,
    strangers: Vec<Stranger>,
    given: Vec<u32>,
    /// The entries whose datagrams are on the line to this end, and all that ever were.
    coming: Vec<u64>,
    came: Vec<u64>,
}

struct Run {
    random: Random,
    style: Style,
    odd: u64,
    stage: Stage,
    known: [Known; 2],
    lines: Vec<String>,
    calls: u64,
}

fn index(side: Side) -> usize {
    match side {
        Side::Left => 0,
        Side::Right => 1,
    }
}

fn other(side: Side) -> Side {
    match side {
        Side::Left => Side::Right,
        Side::Right => Side::Left,
    }
}

fn time_of(call: &Call) -> u64 {
    match call {
        Call::Enrol { time, .. }
        | Call::Send { time, .. }
        | Call::Tick { time, .. }
        | Call::Arrive { time, .. }
        | Call::Hear { time, .. } => *time,
    }
}

fn some_start(random: &mut Random) -> u64 {
    match random.below(4) {
        0 => 0,
        1 => random.below(u64::from(NUMBERS)),
        _ => u64::from(NUMBERS) - 1 - random.below(70),
    }
}

fn some_peer(random: &mut Random) -> Peer {
    Peer { address: [10, 0, random.below(2) as u8, random.below(30) as u8], port: random.pick(&[0, 1719, 1720, 65535]) }
}

impl Run {
    fn new(seed: u64, odd: u64) -> Run {
        let mut random = Random::of_seed(seed);
        let style = style(&mut random, seed);
        let left = Peer { address: [10, 0, 0, 1], port: 1720 };
        let right = match random.below(3) {
            0 => Peer { address: [10, 0, 0, 1], port: 1721 },
            _ => Peer { address: [10, 0, 0, 2], port: 1720 },
        };
        let books = [Book::Mask, Book::List];
        let set_ups =
            [left, right].map(|peer| SetUp { peer, start: some_start(&mut random), book: random.pick(&books) });
        let clock = match random.below(12) {
            0 => LATEST_TIME - random.below(200_000),
            1 => random.below(LATEST_TIME),
            _ => random.below(2) * random.below(100_000),
        };
        let known = [left, right].map(|peer| Known {
            peer,
            place: random.pick(&[0, 1, 5, 17, 30, 31]),
            enrolled: false,
            clock,
            moments: Vec::new(),
            strangers: Vec::new(),
            given: Vec::new(),
            coming: Vec::new(),
            came: Vec::new(),
        });
        let mut writing = Writing { random: &mut random, odd };
        let lines = vec![writing.set_up(Side::Left, set_ups[0]), writing.set_up(Side::Right, set_ups[1])];
        let [left, right] = set_ups;
        let stage = Stage::open(left, right).unwrap_or_else(|_| unreachable!("the start numbers are below the limit"));
        Run { random, style, odd, stage, known, lines, calls: 0 }
    }

    /// Plays a call, notes what came of it, and writes its line. Answers whether it was accepted.
    fn play(&mut self, side: Side, call: Call) -> bool {
        let answer = self.stage.call(side, &call).unwrap_or_else(|stray| panic!("a run went astray: {stray}"));
        self.calls += 1;
        self.lines.push(Writing { random: &mut self.random, odd: self.odd }.call(side, &call));
        if answer.starts_with("refused") {
            return false;
        }
        if self.stage.log.last().is_some_and(|entry| entry.for_other.is_some()) && !self.random.percent(self.style.lost) {
            self.known[index(other(side))].coming.push(self.calls);
        }
        let known = &mut self.known[index(side)];
        known.clock = time_of(&call);
        known.moments.push(known.clock);
        if known.moments.len() > 6 {
            known.moments.remove(0);
        }
        match call {
            Call::Enrol { place, peer, .. } => self.note_enrolled(side, place, peer),
            Call::Send { place, ack_wanted, .. } => self.note_sent(side, place, ack_wanted, &answer),
            _ => {}
        }
        true
    }

    fn note_enrolled(&mut self, side: Side, place: u64, peer: Peer) {
        let random = &mut self.random;
        let newest = match random.below(3) {
            0 => random.below(u64::from(NUMBERS)) as u32,
            1 => NUMBERS - 1 - random.below(30) as u32,
            _ => random.below(30) as u32,
        };
        let is_other_end = peer == self.known[index(other(side))].peer;
        let known = &mut self.known[index(side)];
        if is_other_end {
            known.enrolled = true;
            known.place = place;
        } else {
            known.strangers.push(Stranger { place, peer, newest, awaited: None });
        }
    }

    fn note_sent(&mut self, side: Side, place: u64, ack_wanted: bool, answer: &str) {
        let number = answer.split(' ').nth(1).and_then(|word| word.parse().ok());
        let known = &mut self.known[index(side)];
        known.given.extend(number);
        if let Some(stranger) = known.strangers.iter_mut().find(|stranger| stranger.place == place && ack_wanted) {
            stranger.awaited = number;
        }
    }

    fn time(&mut self, side: Side) -> u64 {
        let clock = self.known[index(side)].clock;
        if self.random.percent(self.style.bad) && self.random.percent(40) {
            return match self.random.below(5) {
                0 => LATEST_TIME + 1,
                1 => u64::MAX - self.random.below(2),
                2 => clock.saturating_sub(1),
                3 => self.random.below(clock + 1),
                _ => LATEST_TIME + self.random.below(2) * 1_000,
            };
        }
        if self.random.percent(self.style.aimed) {
            let moment = self.random.pick(&[&[clock], self.known[index(side)].moments.as_slice()].concat());
            let timer = self.random.pick(&[1_000, 1_000, 3_000, 3_000, 6_000, 30_000]);
            let early = self.random.pick(&[0, 0, 1, 2]);
            return (moment + timer - early).clamp(clock, LATEST_TIME.max(clock));
        }
        let step = self.random.below(self.style.step + 1);
        (clock + step).min(LATEST_TIME)
    }

    fn room(&mut self) -> u64 {
        if !self.random.percent(self.style.bad) {
            return USUAL_ROOM;
        }
        self.random.pick(&[1_023, 1_023, 1_024, 1_024, 1_025, 0, 70_000, u64::MAX])
    }

    /// A place to send to or to tick: that of the other end, of a stranger, or a bad one.
    fn place(&mut self, side: Side) -> u64 {
        if self.random.percent(self.style.bad) && self.random.percent(40) {
            return match self.random.below(4) {
                0 => 32,
                1 => 31,
                2 => u64::MAX,
                _ => self.random.below(40),
            };
        }
        let known = &self.known[index(side)];
        if !known.strangers.is_empty() && self.random.percent(self.style.to_stranger) {
            return self.random.pick(&known.strangers).place;
        }
        known.place
    }

    fn step(&mut self) {
        let side = self.random.pick(&[Side::Left, Side::Right]);
        let Style { enrol, send, tick, arrive, .. } = self.style;
        let enrol = if self.known[index(side)].enrolled { enrol } else { enrol + 30 };
        match self.random.below(100 + enrol) {
            chance if chance < enrol => self.enrol(side),
            chance if chance < enrol + send => self.send(side),
            chance if chance < enrol + send + tick => self.tick(side),
            chance if chance < enrol + send + tick + arrive => self.arrive(side),
            _ => self.hear(side),
        }
    }

    fn enrol(&mut self, side: Side) {
        let them = self.known[index(other(side))].peer;
        let known = &self.known[index(side)];
        let (mut place, mut peer) = (known.place, them);
        if known.enrolled {
            peer = some_peer(&mut self.random);
            place = self.random.below(33);
            match self.random.below(8) {
                0 => peer = them,
                1 => place = self.known[index(side)].place,
                2 => place = 32,
                3 => peer = self.known[index(side)].peer,
                _ => {}
            }
        }
        let role = self.random.pick(&[Role::Master, Role::Master, Role::Slave]);
        let time = self.time(side);
        self.play(side, Call::Enrol { place, time, peer, role });
    }

    fn send(&mut self, side: Side) {
        let place = self.place(side);
        let bad = self.random.percent(self.style.bad);
        let body = if bad { bad_body(&mut self.random) } else { good_body(&mut self.random) };
        let ack_wanted = self.random.percent(self.style.ack_wanted);
        let (time, room) = (self.time(side), self.room());
        self.play(side, Call::Send { place, time, ack_wanted, body, room });
    }

    fn tick(&mut self, side: Side) {
        let (place, time, room) = (self.place(side), self.time(side), self.room());
        self.play(side, Call::Tick { place, time, room });
    }

    fn arrive(&mut self, side: Side) {
        let style = self.style;
        let known = &mut self.known[index(side)];
        let entry = if !known.came.is_empty() && self.random.percent(style.repeated) {
            let recent = if self.random.percent(70) { known.came.len().min(6) } else { known.came.len() };
            known.came[known.came.len() - 1 - self.random.index(recent)]
        } else if known.coming.is_empty() {
            return;
        } else {
            let late = self.random.percent(style.overtaking);
            let entry = known.coming.remove(if late { self.random.index(known.coming.len()) } else { 0 });
            known.came.push(entry);
            entry
        };
        let (time, room) = (self.time(side), self.room());
        self.play(side, Call::Arrive { time, entry, room });
    }

    fn hear(&mut self, side: Side) {
        let strangers = self.known[index(side)].strangers.len();
        if strangers == 0 && self.known[index(side)].enrolled && self.random.percent(70) {
            return self.enrol(side);
        }
        if strangers == 0 || self.random.percent(3) {
            return self.hear_nobody(side);
        }
        let which = self.random.index(strangers);
        if self.random.percent(2) {
            return self.hear_a_turn(side, which);
        }
        let Stranger { peer, newest, awaited, .. } = self.known[index(side)].strangers[which];
        let number = self.number_near(newest);
        let mut octets = self.datagram_of(side, number, awaited);
        let spoilt = self.random.percent(25);
        if spoilt {
            self.spoil(&mut octets);
        }
        let (time, room) = (self.time(side), self.room());
        let accepted = self.play(side, Call::Hear { time, peer, octets, room });
        let ahead = (1..NUMBERS / 2).contains(&(number.wrapping_sub(newest) % NUMBERS));
        if accepted && ahead && !spoilt {
            self.known[index(side)].strangers[which].newest = number;
        }
    }

    /// A datagram of someone who most likely stands at no place.
    fn hear_nobody(&mut self, side: Side) {
        let peer = some_peer(&mut self.random);
        if peer == self.known[index(other(side))].peer {
            return;
        }
        let octets = self.datagram_of(side, 7, None);
        let (time, room) = (self.time(side), self.room());
        self.play(side, Call::Hear { time, peer, octets, room });
    }

    /// A whole turn of a stranger's numbers, after which its old ones are new again.
    fn hear_a_turn(&mut self, side: Side, which: usize) {
        let Stranger { peer, newest, .. } = self.known[index(side)].strangers[which];
        let half = NUMBERS / 2 - 1;
        let time = self.known[index(side)].clock;
        for up in [1, 1 + half, 1 + half + half, 6, 1, 0, 2, 1] {
            let number = (newest + up) % NUMBERS;
            let octets = datagram(0, number, &[spoken(&mut self.random)]);
            self.play(side, Call::Hear { time, peer, octets, room: USUAL_ROOM });
        }
        self.known[index(side)].strangers[which].newest = (newest + 6) % NUMBERS;
    }

    /// A number as it may come next from someone whose newest one is known.
    fn number_near(&mut self, newest: u32) -> u32 {
        let half = NUMBERS / 2;
        let around = self.random.below(3) as u32;
        let newest = newest + NUMBERS;
        let number = match self.random.below(20) {
            0..8 => newest + 1,
            8..10 => newest,
            10..12 => newest - self.random.below(26) as u32,
            12 => newest - 23 - around,
            13 => newest - 62 - around,
            14 => newest - 22 - around,
            15 => newest + 2 + self.random.below(5) as u32,
            16 => newest + self.random.pick(&[22, 23, 24, 25, 62, 63, 64, 65, 127, 128]),
            17 if self.random.percent(30) => newest + half - 2 + around,
            18 if self.random.percent(30) => self.random.below(u64::from(NUMBERS)) as u32,
            _ => newest + 1,
        };
        number % NUMBERS
    }

    /// A sound datagram of a stranger.
    fn datagram_of(&mut self, side: Side, number: u32, awaited: Option<u32>) -> Vec<u8> {
        let random = &mut self.random;
        let wants_ack = random.percent(40);
        if random.percent(6) {
            let size = random.between(LONGEST_DATAGRAM - 1, LONGEST_DATAGRAM + 2);
            let (before, taken) = match random.below(3) {
                0 => (vec![payload(random.pick(&[0, 2, 7, 127]), 0, 1, &[])], 13),
                1 => (Vec::new(), if wants_ack { 9 } else { 0 }),
                _ => (vec![payload(MESSAGE, 0, 1, &[])], if wants_ack { 9 } else { 0 }),
            };
            return datagram(u8::from(wants_ack), number, &alives_for_reply(random, size, before, taken));
        }
        let mut payloads = Vec::new();
        for _ in 0..random.pick(&[1, 1, 1, 2, 2, 3, 5]) {
            payloads.push(self.payload_of(side, awaited));
        }
        let random = &mut self.random;
        let deserving = payloads.iter().any(|payload| !matches!(payload[0] >> 1, ACK | NACK));
        let reserved = if random.percent(10) { random.below(8) as u8 * 2 } else { 0 };
        datagram(u8::from(wants_ack && deserving) | reserved, number, &payloads)
    }

    fn payload_of(&mut self, side: Side, awaited: Option<u32>) -> Vec<u8> {
        let given = &self.known[index(side)].given;
        let random = &mut self.random;
        let mut named = Vec::new();
        for _ in 0..random.pick(&[0, 1, 1, 1, 2, 4]) {
            match awaited {
                Some(number) if random.percent(50) => named.push(number),
                _ if !given.is_empty() && random.percent(60) => named.push(random.pick(given)),
                _ => named.push(random.below(u64::from(NUMBERS)) as u32),
            }
        }
        let reserved = u8::from(random.percent(8));
        match random.below(10) {
            0..3 => spoken(random),
            3 | 4 => {
                let cookie = random.pick(&[0, 0, 1, 4, 60]);
                let cookie = random.octets(cookie);
                let (validity, wanted) = (random.next() as u16, random.below(2) as u16);
                payload(ALIVE, reserved, random.next() as u16, &alive(validity, &cookie, wanted))
            }
            5 | 6 => payload(ACK, reserved, random.next() as u16, &ack(reserved, &named)),
            7 | 8 => payload(NACK, reserved, 0, &nack(random, &named)),
            _ => {
                let length = random.below(4) as usize;
                payload(random.pick(&[0, 2, 7, 64, 127]), reserved, 4, &random.octets(length))
            }
        }
    }

    /// Breaks a sound datagram, in most cases.
    fn spoil(&mut self, octets: &mut Vec<u8>) {
        let random = &mut self.random;
        match random.below(10) {
            0 => octets.clear(),
            1 => octets.truncate(random.index(octets.len())),
            2 => octets.extend(random.octets(1)),
            3 => octets[0] |= 1 << random.between(4, 7),
            4 => octets[4] = octets[4].wrapping_add(random.pick(&[1, 255, 3])),
            5 => *octets = datagram(1, 3, &[payload(ACK, 0, 0, &ack(0, &[4])), payload(NACK, 0, 0, &nack(random, &[4]))]),
            6 => {
                let length = random.between(LONGEST_DATAGRAM, LONGEST_DATAGRAM + 2);
                let data = random.octets(length - 10);
                *octets = datagram(0, random.below(50) as u32, &[payload(MESSAGE, 0, 2, &data)]);
            }
            7 | 8 => {
                octets.extend(broken_payload(random));
                octets[4] += 1;
            }
            _ => {
                let at = random.index(octets.len());
                octets[at] ^= 1 << random.below(8);
            }
        }
    }
}

/// A script that runs from its first line to its last.
fn good_script(seed: u64, calls: u64) -> (Run, Vec<u8>) {
    let odd = if seed.is_multiple_of(4) { 15 } else { 0 };
    let mut run = Run::new(seed, odd);
    while run.calls < calls {
        run.step();
    }
    let mut text = run.lines.join("\n").into_bytes();
    if !seed.is_multiple_of(16) {
        text.push(b'\n');
    }
    (run, text)
}

// ---------------------------------------------------------------------------------------------
// Scripts that have no transcript, or might not

/// Every choice of six faults in one small script, so that each stands before each.
fn faulty_script(faults: u64) -> String {
    let has = |fault: u64| faults >> fault & 1 == 1;
    let left_start = if has(0) { "16777216" } else { "16777215" };
    let right_start = if has(1) { "18446744073709551615" } else { "0" };
    let right = if has(2) { "10.0.0.1:01720" } else { "10.0.0.2:1720" };
    let mut lines = vec![
        format!("left 10.0.0.1:1720 {left_start} mask"),
        "# and".into(),
        format!("right {right} {right_start} list"),
        format!("left enrol 3 5 {right} slave"),
        "left send 3 5 plain 0200000000".into(),
    ];
    if has(3) {
        lines.extend(["right arrive 9 1".into(), "right arrive 9 2".into()]);
    }
    if has(4) {
        lines.extend([String::new(), format!("left hear 6 {right} -"), "right arrive 9 9".into()]);
    }
    if has(5) {
        lines.extend(["left tick 3".into(), "right".into()]);
    }
    lines.join("\n") + "\n"
}

/// Scripts that end early, or whose first lines are not what they should be.
const SHORT: [&str; 18] = [
    "",
    "\n",
    "\n\n",
    " ",
    "# nothing",
    "# nothing\n",
    "left 10.0.0.1:1720 0 mask",
    "left 10.0.0.1:1720 0 mask\n",
    "left 10.0.0.1:1720 0 mask\n\n   ",
    "left 10.0.0.1:1720 16777216 mask\n",
    "left 10.0.0.1:1720 18446744073709551616 mask\n",
    "left 10.0.0.1:1720 18446744073709551616 mask\nright\n",
    "right 10.0.0.1:1720 0 mask\nleft 10.0.0.2:1720 0 mask\n",
    "left 10.0.0.1:1720 0 mask\nleft 10.0.0.2:1720 0 mask\n",
    "left 10.0.0.1:1720 0 mask\nleft tick 0 0\nright 10.0.0.2:1720 0 list\n",
    "left tick 0 0\nleft 10.0.0.1:1720 0 mask\nright 10.0.0.2:1720 0 list\n",
    "left 10.0.0.1:1720 0 mask\nright 10.0.0.2:1720 0 list",
    "left 10.0.0.1:1720 0 mask\nright 10.0.0.2:1720 0 list\nright 10.0.0.2:1720 0 list\n",
];

/// Spoils a script in one way or more.
fn spoilt_script(seed: u64) -> Vec<u8> {
    let calls = [0, 1, 5, 30, 60][(seed % 5) as usize];
    let (mut run, text) = good_script(1_000_000 + seed, calls);
    let mut lines: Vec<Vec<u8>> = text.split(|octet| *octet == b'\n').map(<[u8]>::to_vec).collect();
    for _ in 0..run.random.pick(&[1, 1, 1, 2, 3]) {
        match run.random.below(12) {
            0..2 => spoil_word(&mut run.random, &mut lines),
            2..6 => spoil_set_up(&mut run.random, &mut lines),
            6..10 => stray_call(&mut run, &mut lines),
            _ => spoil_line(&mut run.random, &mut lines),
        }
    }
    let mut text = lines.join(&b'\n');
    match run.random.below(12) {
        0 => text.truncate(run.random.index(text.len() + 1)),
        1 => text.push(b'\n'),
        2 => text = text.iter().flat_map(|octet| if *octet == b'\n' { vec![b'\r', b'\n'] } else { vec![*octet] }).collect(),
        _ => {}
    }
    text
}

const ODD_WORDS: [&[u8]; 28] = [
    b"", b"-", b"0", b"00", b"1", b"32", b"18446744073709551615", b"18446744073709551616", b"99999999999999999999999",
    b"-1", b"+1", b"1.0", b"0x1", b"abc", b"ABCDEF", b"abcg", b"Left", b"right", b"ack", b"room", b"room 1024",
    b"10.0.0.256:1", b"10.0.0.1:65536", b"10.0.0.1", b"10.0.0:1", b"10.0.0.0.1:1", b"10.0.0.1:1:1", b"\xff\xfe",
];

/// Puts another word in a word's place.
fn spoil_word(random: &mut Random, lines: &mut [Vec<u8>]) {
    let line = random.index(lines.len());
    let mut words: Vec<&[u8]> = lines[line].split(|octet| *octet == b' ').collect();
    let at = random.index(words.len());
    let word = random.pick(&ODD_WORDS);
    match random.below(4) {
        0 => words.insert(at, word),
        1 => drop(words.remove(at)),
        _ => words[at] = word,
    }
    lines[line] = words.join(&b' ');
}

fn spoil_set_up(random: &mut Random, lines: &mut Vec<Vec<u8>>) {
    let starts: [&[u8]; 5] = [b"16777216", b"16777215", b"18446744073709551615", b"18446744073709551616", b"0016777216"];
    let end = random.index(2.min(lines.len()));
    let mut words: Vec<Vec<u8>> = lines[end].split(|octet| *octet == b' ').map(<[u8]>::to_vec).collect();
    match random.below(8) {
        0..4 => {
            let at = words.len().min(3) - 1;
            words[at] = random.pick(&starts).to_vec();
        }
        4 | 5 => {
            let same: [&[u8]; 3] = [b"10.0.0.1:1720", b"010.0.0.01:001720", b"10.00.000.1:1720"];
            let at = words.len().min(2) - 1;
            words[at] = random.pick(&same).to_vec();
        }
        6 => {
            lines.insert(end, b"# both ends".to_vec());
            lines.truncate(random.between(1, 2));
            return;
        }
        _ => {
            let line = lines[end].clone();
            lines.push(line);
            return;
        }
    }
    lines[end] = words.join(&b' ');
}

/// Adds a call that may not belong: an arrive of some entry or other, or a hear under an end's address.
fn stray_call(run: &mut Run, lines: &mut Vec<Vec<u8>>) {
    let random = &mut run.random;
    let caller = random.pick(&[Side::Left, Side::Right]);
    let side = caller.word();
    let time = run.known[0].clock.max(run.known[1].clock) + random.below(2);
    let log = run.stage.log.iter().zip(1..);
    let wrote_nothing: Vec<u64> =
        log.filter(|(entry, _)| entry.side != caller && entry.for_other.is_none()).map(|(_, number)| number).collect();
    let entry = match random.below(4) {
        0 => random.below(2),
        1 => run.calls + random.below(3),
        2 if !wrote_nothing.is_empty() => random.pick(&wrote_nothing),
        _ => 1 + random.below(run.calls + 1),
    };
    let line = match random.below(4) {
        0 => format!("{side} hear {time} 10.0.0.1:1720 -"),
        1 => format!("{side} hear {time} 010.0.0.2:1720 0000000000020000000101"),
        _ => format!("{side} arrive {time} {entry}"),
    };
    let at = if random.percent(60) { lines.len() } else { random.between(0, lines.len()) };
    lines.insert(at, line.into_bytes());
}

fn spoil_line(random: &mut Random, lines: &mut Vec<Vec<u8>>) {
    let line = random.index(lines.len());
    let at = random.index(lines[line].len() + 1);
    match random.below(6) {
        0 => lines[line].insert(at, random.pick(b"\t\r#x0f \0\x80")),
        1 => drop(lines.remove(line)),
        2 => lines[line].extend(b" room"),
        3 => lines[line].extend(b" room 2000"),
        4 => lines[line].truncate(at),
        _ => lines.insert(line, random.pick(&[&b"#"[..], b" ", b"", b"left", b"\t", b"# room"]).to_vec()),
    }
    if lines.is_empty() {
        lines.push(Vec::new());
    }
}

/// What the runs came to, so that a reader sees how much went on in them.
#[derive(Default)]
struct Made {
    calls: u64,
    all: Tally,
}

impl Made {
    fn add(&mut self, run: &Run) {
        self.calls += run.calls;
        for side in [Side::Left, Side::Right] {
            let Tally { sent, resent, handed, acknowledged, rejected, unanswered } = run.stage.tally(side);
            self.all.sent += sent;
            self.all.resent += resent;
            self.all.handed += handed;
            self.all.acknowledged += acknowledged;
            self.all.rejected += rejected;
            self.all.unanswered += unanswered;
        }
    }
}

fn write_all(folder: &Path) -> io::Result<Made> {
    let mut made = Made::default();
    for seed in 1..=RUNS {
        let (run, text) = good_script(seed, 280 + seed % 11 * 12);
        made.add(&run);
        fs::write(folder.join(format!("run-{seed:03}.script")), text)?;
    }
    for seed in 1..=SPOILT {
        fs::write(folder.join(format!("spoilt-{seed:03}.script")), spoilt_script(seed))?;
    }
    for faults in 0..64 {
        fs::write(folder.join(format!("faulty-{faults:02}.script")), faulty_script(faults))?;
    }
    for (text, index) in SHORT.iter().zip(1..) {
        fs::write(folder.join(format!("short-{index:02}.script")), text)?;
    }
    Ok(made)
}

fn main() -> ExitCode {
    let Some(folder) = std::env::args_os().nth(1) else {
        eprintln!("usage: scripts OUTDIR");
        return ExitCode::from(2);
    };
    match write_all(Path::new(&folder)) {
        Ok(Made { calls, all: Tally { sent, resent, handed, acknowledged, rejected, unanswered } }) => {
            println!("scripts: {RUNS} runs of {calls} calls: messages sent {sent}, resent {resent}, handed out {handed},");
            println!("  acknowledged {acknowledged}, rejected {rejected}, unanswered {unanswered}");
            ExitCode::SUCCESS
        }
        Err(error) => {
            eprintln!("scripts: {error}");
            ExitCode::FAILURE
        }
    }
}
