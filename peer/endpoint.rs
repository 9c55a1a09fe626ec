// A second endpoint, in plain Rust: what one end of a trunk does with what it is asked to send and with what it hears.
// It was written from docs/ENDPOINT.md, docs/ARRIVALS.md, docs/FORMATS.md and docs/REFUSALS.md alone, by someone who had
// not seen the proved one. A module: peer/rehearse.rs and peer/scripts.rs are built over it.

use std::array;

pub const PLACES: usize = 32;
pub const NUMBERS: u32 = 16_777_216;
pub const LATEST_TIME: u64 = 281_474_976_710_655;
pub const LONGEST_DATAGRAM: usize = 1_024;
pub const LONGEST_BODY: usize = 507;

const MOST_GIVEN: u32 = 8_388_608;
const HEADER: usize = 5;
const PAYLOAD_HEADER: usize = 5;

// The timers, in milliseconds, and how many transmissions a message has.
const FIRST: u64 = 1_000;
const LATER: u64 = 3_000;
const TRIES: u32 = 4;
const SILENCE: u64 = 30_000;
const REST: u64 = 6_000;

const MESSAGE: u8 = 1;
const ALIVE: u8 = 3;
const ACK: u8 = 4;
const NACK: u8 = 5;
const NON_STANDARD: u8 = 6;

// ---------------------------------------------------------------------------------------------
// Refusals

#[derive(Clone, Copy, Debug, PartialEq, Eq)]
pub enum Layer {
    Datagram,
    Payload,
    Structure,
    End,
}

/// The question that a call or a datagram fails, and where.
#[derive(Clone, Copy, Debug, PartialEq, Eq)]
pub struct Refusal {
    pub number: u32,
    pub layer: Layer,
    pub offset: usize,
}

/// The refusal by a question of the endpoint.
fn refused(number: u32) -> Refusal {
    Refusal { number, layer: Layer::End, offset: 0 }
}

/// Puts a question of the endpoint.
fn ask(number: u32, yes: bool) -> Result<(), Refusal> {
    if yes { Ok(()) } else { Err(refused(number)) }
}

/// Puts a question of a datagram.
fn ask_at(number: u32, layer: Layer, offset: usize, yes: bool) -> Result<(), Refusal> {
    if yes { Ok(()) } else { Err(Refusal { number, layer, offset }) }
}

// ---------------------------------------------------------------------------------------------
// Reading

/// One payload, as it stands in a datagram.
#[derive(Clone, Debug)]
pub struct Payload<'a> {
    pub kind: u8,
    pub call: u16,
    pub data: &'a [u8],
    reserved: bool,
    content: Content<'a>,
}

/// What an endpoint wants to know of a payload's data.
#[derive(Clone, Debug)]
enum Content<'a> {
    /// Call messages and non-standard payloads: what is handed out.
    Handed,
    Alive { cookie: &'a [u8], reply_wanted: bool },
    Ack(Vec<u32>),
    Nack(Vec<(u32, u16)>),
    Unsupported,
}

struct Datagram<'a> {
    number: u32,
    ack_wanted: bool,
    payloads: Vec<Payload<'a>>,
}

fn u16_at(octets: &[u8], at: usize) -> u16 {
    u16::from_be_bytes([octets[at], octets[at + 1]])
}

fn u24_at(octets: &[u8], at: usize) -> u32 {
    u32::from_be_bytes([0, octets[at], octets[at + 1], octets[at + 2]])
}

/// Questions 20 to 28.
fn read(octets: &[u8]) -> Result<Datagram<'_>, Refusal> {
    ask_at(20, Layer::Datagram, LONGEST_DATAGRAM, octets.len() <= LONGEST_DATAGRAM)?;
    ask_at(21, Layer::Datagram, octets.len(), octets.len() >= HEADER)?;
    ask_at(22, Layer::Datagram, 0, octets[0] >> 4 == 0)?;
    let mut payloads = Vec::new();
    let mut at = HEADER;
    for _ in 0..=octets[4] {
        let payload = read_payload(&octets[at..], at)?;
        at += PAYLOAD_HEADER + payload.data.len();
        payloads.push(payload);
    }
    ask_at(27, Layer::Datagram, at, at == octets.len())?;
    let ack_wanted = octets[0] & 1 == 1;
    let deserving = payloads.iter().any(|payload| !matches!(payload.kind, ACK | NACK));
    ask_at(28, Layer::Datagram, 0, deserving || !ack_wanted)?;
    Ok(Datagram { number: u24_at(octets, 1), ack_wanted, payloads })
}

/// Questions 23 to 26 of all payloads of a body that is to stand behind a header.
fn read_body(body: &[u8]) -> Result<Vec<Payload<'_>>, Refusal> {
    let mut payloads = Vec::new();
    let mut rest = body;
    while !rest.is_empty() {
        let payload = read_payload(rest, HEADER + body.len() - rest.len())?;
        rest = &rest[PAYLOAD_HEADER + payload.data.len()..];
        payloads.push(payload);
    }
    Ok(payloads)
}

/// Questions 23 to 26 of the payload at the front of `rest`, whose first octet has the offset `at` in the datagram.
fn read_payload(rest: &[u8], at: usize) -> Result<Payload<'_>, Refusal> {
    ask_at(23, Layer::Payload, at, rest.len() >= PAYLOAD_HEADER)?;
    let (header, behind) = rest.split_at(PAYLOAD_HEADER);
    let length = usize::from(u16_at(header, 3));
    ask_at(24, Layer::Payload, at + 3, behind.len() >= length)?;
    let data = &behind[..length];
    let kind = header[0] >> 1;
    ask_at(25, Layer::Structure, at + PAYLOAD_HEADER, length >= fixed_part(kind))?;
    let Some(content) = content_of(kind, data) else {
        return Err(Refusal { number: 26, layer: Layer::Structure, offset: at + PAYLOAD_HEADER });
    };
    Ok(Payload { kind, call: u16_at(header, 1), data, reserved: header[0] & 1 == 1, content })
}

fn fixed_part(kind: u8) -> usize {
    match kind {
        ALIVE => 4,
        ACK | NACK => 1,
        NON_STANDARD => 2,
        _ => 0,
    }
}

/// What data that holds its fixed part says, or nothing where its inner counts do not fit.
fn content_of(kind: u8, data: &[u8]) -> Option<Content<'_>> {
    match kind {
        MESSAGE => Some(Content::Handed),
        ALIVE => read_alive(data),
        ACK => read_ack(data),
        NACK => read_nack(data),
        NON_STANDARD => (2 + usize::from(u16_at(data, 0)) <= data.len()).then_some(Content::Handed),
        _ => Some(Content::Unsupported),
    }
}

fn read_alive(data: &[u8]) -> Option<Content<'_>> {
    let length_and_wish = u16_at(data, 2);
    let cookie = &data[4..];
    let fits = usize::from(length_and_wish >> 1) == cookie.len();
    fits.then_some(Content::Alive { cookie, reply_wanted: length_and_wish & 1 == 1 })
}

fn read_ack(data: &[u8]) -> Option<Content<'_>> {
    let numbers = &data[1..];
    let fits = usize::from(data[0] >> 1) * 3 == numbers.len();
    fits.then(|| Content::Ack(numbers.chunks(3).map(|number| u24_at(number, 0)).collect()))
}

fn read_nack(data: &[u8]) -> Option<Content<'_>> {
    let mut entries = Vec::new();
    let mut rest = &data[1..];
    for _ in 0..data[0] >> 1 {
        let (fixed, behind) = rest.split_at_checked(6)?;
        rest = behind.get(usize::from(fixed[5])..)?;
        entries.push((u24_at(fixed, 0), u16_at(fixed, 3)));
    }
    rest.is_empty().then_some(Content::Nack(entries))
}

// ---------------------------------------------------------------------------------------------
// Writing

fn put_header(out: &mut Vec<u8>, number: u32, ack_wanted: bool, payloads: usize) {
    out.push(u8::from(ack_wanted));
    out.extend(&number.to_be_bytes()[1..]);
    out.push((payloads - 1) as u8);
}

/// The header of a payload with the call reference 0.
fn put_payload_header(out: &mut Vec<u8>, kind: u8, length: usize) {
    out.extend([kind << 1, 0, 0]);
    out.extend((length as u16).to_be_bytes());
}

/// An Ack of one number.
fn put_ack(out: &mut Vec<u8>, number: u32) {
    put_payload_header(out, ACK, 4);
    out.push(1 << 1);
    out.extend(&number.to_be_bytes()[1..]);
}

/// A Nack of one number, with the reason 0 and one octet of data: the type that is not supported.
fn put_nack(out: &mut Vec<u8>, number: u32, kind: u8) {
    put_payload_header(out, NACK, 8);
    out.push(1 << 1);
    out.extend(&number.to_be_bytes()[1..]);
    out.extend([0, 0, 1, kind]);
}

/// An I-Am-Alive with the validity 0.
fn put_alive(out: &mut Vec<u8>, cookie: &[u8], reply_wanted: bool) {
    put_payload_header(out, ALIVE, 4 + cookie.len());
    out.extend([0, 0]);
    out.extend(((cookie.len() as u16) << 1 | u16::from(reply_wanted)).to_be_bytes());
    out.extend(cookie);
}

/// What a datagram is replied to with, but for the header: how many payloads, and their octets.
fn reply_to(datagram: &Datagram) -> (usize, Vec<u8>) {
    let mut count = 0;
    let mut octets = Vec::new();
    let unsupported = datagram.payloads.iter().find(|payload| matches!(payload.content, Content::Unsupported));
    if let Some(payload) = unsupported {
        put_nack(&mut octets, datagram.number, payload.kind);
        count += 1;
    } else if datagram.ack_wanted {
        put_ack(&mut octets, datagram.number);
        count += 1;
    }
    for payload in &datagram.payloads {
        if let Content::Alive { cookie, reply_wanted: true } = payload.content {
            put_alive(&mut octets, cookie, false);
            count += 1;
        }
    }
    (count, octets)
}

// ---------------------------------------------------------------------------------------------
// Arrival books

#[derive(Clone, Copy, Debug, PartialEq, Eq)]
pub enum Book {
    Mask,
    List,
}

#[derive(Clone, Copy, PartialEq, Eq)]
enum Judgement {
    Fresh,
    Again,
    Old,
}

/// What a book keeps of one neighbour.
enum Window {
    Blank(Book),
    /// Bit j is the number that is behind the newest by j.
    Mask { newest: u32, bits: u64 },
    List { newest: u32, noted: Vec<u32> },
}

const MASK_DEPTH: u32 = 64;
const LIST_DEPTH: u32 = 24;

/// How many steps lead from `from` up to `to`.
fn steps(from: u32, to: u32) -> u32 {
    to.wrapping_sub(from) % NUMBERS
}

fn is_ahead(number: u32, newest: u32) -> bool {
    (1..NUMBERS / 2).contains(&steps(newest, number))
}

/// Whether a number is the newest or behind it by less than the depth.
fn is_near(number: u32, newest: u32, depth: u32) -> bool {
    steps(number, newest) < depth
}

impl Window {
    fn judge(&self, number: u32) -> Judgement {
        let (newest, depth) = match *self {
            Window::Blank(_) => return Judgement::Fresh,
            Window::Mask { newest, .. } => (newest, MASK_DEPTH),
            Window::List { newest, .. } => (newest, LIST_DEPTH),
        };
        if is_ahead(number, newest) {
            return Judgement::Fresh;
        }
        if !is_near(number, newest, depth) {
            return Judgement::Old;
        }
        let noted = match self {
            Window::Blank(_) => false,
            Window::Mask { bits, .. } => bits >> steps(number, newest) & 1 == 1,
            Window::List { noted, .. } => noted.contains(&number),
        };
        if noted { Judgement::Again } else { Judgement::Fresh }
    }

    /// Notes a fresh number.
    fn note(&mut self, number: u32) {
        match self {
            Window::Blank(Book::Mask) => *self = Window::Mask { newest: number, bits: 1 },
            Window::Blank(Book::List) => *self = Window::List { newest: number, noted: vec![number] },
            Window::Mask { newest, bits } if is_ahead(number, *newest) => {
                *bits = bits.checked_shl(steps(*newest, number)).unwrap_or(0) | 1;
                *newest = number;
            }
            Window::Mask { newest, bits } => *bits |= 1 << steps(number, *newest),
            Window::List { newest, noted } => {
                if is_ahead(number, *newest) {
                    *newest = number;
                    noted.retain(|earlier| is_near(*earlier, number, LIST_DEPTH));
                }
                noted.push(number);
            }
        }
    }
}

// ---------------------------------------------------------------------------------------------
// The endpoint

#[derive(Clone, Copy, Debug, PartialEq, Eq)]
pub struct Peer {
    pub address: [u8; 4],
    pub port: u16,
}

#[derive(Clone, Copy, Debug, PartialEq, Eq)]
pub enum Role {
    Master,
    Slave,
}

/// A message for which an Ack was wanted and whose outcome is not known.
struct Outstanding {
    number: u32,
    transmissions: u32,
    due: u64,
    octets: Vec<u8>,
}

struct Neighbour {
    peer: Peer,
    role: Role,
    heard: u64,
    last_kept_alive: u64,
    silent: bool,
    outstanding: Option<Outstanding>,
}

/// A datagram that stands at the front of the output buffer.
#[derive(Clone, Copy, Debug, PartialEq, Eq)]
pub struct Written {
    pub number: u32,
    pub size: usize,
}

#[derive(Clone, Copy, Debug, PartialEq, Eq)]
pub enum Ticked {
    Resent(Written),
    Unanswered(u32),
    Silent,
    KeptAlive(Written),
    Idle,
}

#[derive(Clone, Copy, Debug, PartialEq, Eq)]
pub enum Outcome {
    Acknowledged,
    Rejected(u16),
}

#[derive(Debug)]
pub struct Arrival<'a> {
    pub fresh: bool,
    pub payloads: Vec<Payload<'a>>,
    pub settled: Option<(u32, Outcome)>,
    pub reply: Option<Written>,
}

pub struct Endpoint {
    latest: u64,
    given: u32,
    next: u32,
    windows: [Window; PLACES],
    neighbours: [Option<Neighbour>; PLACES],
}

impl Endpoint {
    pub fn open(start: u64, book: Book) -> Result<Endpoint, Refusal> {
        ask(1, start < u64::from(NUMBERS))?;
        Ok(Endpoint {
            latest: 0,
            given: 0,
            next: start as u32,
            windows: array::from_fn(|_| Window::Blank(book)),
            neighbours: array::from_fn(|_| None),
        })
    }

    /// The place that holds a peer.
    pub fn place_of(&self, peer: Peer) -> Option<usize> {
        self.neighbours.iter().position(|held| held.as_ref().is_some_and(|neighbour| neighbour.peer == peer))
    }

    pub fn enrol(&mut self, place: usize, time: u64, peer: Peer, role: Role) -> Result<(), Refusal> {
        ask(2, place < PLACES)?;
        self.ask_time(time)?;
        ask(5, self.neighbours[place].is_none())?;
        ask(6, self.place_of(peer).is_none())?;
        self.latest = time;
        self.neighbours[place] =
            Some(Neighbour { peer, role, heard: time, last_kept_alive: time, silent: false, outstanding: None });
        Ok(())
    }

    pub fn send(
        &mut self,
        place: usize,
        time: u64,
        ack_wanted: bool,
        body: &[u8],
        out: &mut [u8],
    ) -> Result<Written, Refusal> {
        let waiting = self.held(place, time)?.outstanding.is_some();
        ask(8, out.len() >= LONGEST_DATAGRAM)?;
        ask(9, (1..=LONGEST_BODY).contains(&body.len()))?;
        let payloads = read_body(body)?;
        ask(10, payloads.iter().all(|payload| matches!(payload.content, Content::Handed) && !payload.reserved))?;
        ask(11, !(ack_wanted && waiting))?;
        self.ask_numbers_left()?;

        self.latest = time;
        let number = self.give();
        let mut octets = Vec::with_capacity(HEADER + body.len());
        put_header(&mut octets, number, ack_wanted, payloads.len());
        octets.extend(body);
        let written = write(&octets, number, out);
        if ack_wanted && let Some(neighbour) = &mut self.neighbours[place] {
            neighbour.outstanding = Some(Outstanding { number, transmissions: 1, due: time + FIRST, octets });
        }
        Ok(written)
    }

    pub fn tick(&mut self, place: usize, time: u64, out: &mut [u8]) -> Result<Ticked, Refusal> {
        let ticked = self.do_first_that_applies(place, time, out)?;
        self.latest = time;
        Ok(ticked)
    }

    fn do_first_that_applies(&mut self, place: usize, time: u64, out: &mut [u8]) -> Result<Ticked, Refusal> {
        let numbers_left = self.ask_numbers_left();
        let neighbour = self.held(place, time)?;
        ask(8, out.len() >= LONGEST_DATAGRAM)?;

        if let Some(message) = neighbour.outstanding.as_mut().filter(|message| message.due <= time) {
            let number = message.number;
            if message.transmissions == TRIES {
                neighbour.outstanding = None;
                return Ok(Ticked::Unanswered(number));
            }
            message.transmissions += 1;
            message.due = time + LATER;
            return Ok(Ticked::Resent(write(&message.octets, number, out)));
        }
        if !neighbour.silent && time - neighbour.heard >= SILENCE {
            neighbour.silent = true;
            return Ok(Ticked::Silent);
        }
        let rested = time - neighbour.heard.max(neighbour.last_kept_alive);
        if neighbour.role == Role::Slave || rested < REST {
            return Ok(Ticked::Idle);
        }
        numbers_left?;
        neighbour.last_kept_alive = time;
        let number = self.give();
        let mut octets = Vec::new();
        put_header(&mut octets, number, false, 1);
        put_alive(&mut octets, &[], true);
        Ok(Ticked::KeptAlive(write(&octets, number, out)))
    }

    pub fn arrive<'a>(
        &mut self,
        time: u64,
        sender: Peer,
        datagram: &'a [u8],
        out: &mut [u8],
    ) -> Result<Arrival<'a>, Refusal> {
        self.ask_time(time)?;
        let place = self.place_of(sender).ok_or(refused(13))?;
        ask(8, out.len() >= LONGEST_DATAGRAM)?;
        let datagram = read(datagram)?;
        let judgement = self.windows[place].judge(datagram.number);
        ask(14, judgement != Judgement::Old)?;
        let (count, reply) = reply_to(&datagram);
        ask(15, HEADER + reply.len() <= LONGEST_DATAGRAM)?;
        let due = count > 0;
        if due {
            self.ask_numbers_left()?;
        }

        self.latest = time;
        let fresh = judgement == Judgement::Fresh;
        if fresh {
            self.windows[place].note(datagram.number);
        }
        let mut payloads = datagram.payloads;
        if !fresh {
            payloads.clear();
        }
        let settled = self.neighbours[place].as_mut().and_then(|neighbour| neighbour.hear(time, &payloads));
        let reply = due.then(|| {
            let number = self.give();
            let mut octets = Vec::with_capacity(HEADER + reply.len());
            put_header(&mut octets, number, false, count);
            octets.extend(reply);
            write(&octets, number, out)
        });
        payloads.retain(|payload| matches!(payload.content, Content::Handed));
        Ok(Arrival { fresh, payloads, settled, reply })
    }

    fn ask_time(&self, time: u64) -> Result<(), Refusal> {
        ask(3, time <= LATEST_TIME)?;
        ask(4, time >= self.latest)
    }

    /// The neighbour that holds a place.
    fn held(&mut self, place: usize, time: u64) -> Result<&mut Neighbour, Refusal> {
        ask(2, place < PLACES)?;
        self.ask_time(time)?;
        self.neighbours[place].as_mut().ok_or(refused(7))
    }

    fn ask_numbers_left(&self) -> Result<(), Refusal> {
        ask(12, self.given < MOST_GIVEN)
    }

    fn give(&mut self) -> u32 {
        let number = self.next;
        self.next = (number + 1) % NUMBERS;
        self.given += 1;
        number
    }
}

impl Neighbour {
    /// Takes in that this neighbour was heard, and the payloads that are new. Answers the outcome of the outstanding
    /// message, if a payload names it; then it is outstanding no more.
    fn hear(&mut self, time: u64, payloads: &[Payload]) -> Option<(u32, Outcome)> {
        self.heard = time;
        self.silent = false;
        let number = self.outstanding.as_ref()?.number;
        let outcome = payloads.iter().find_map(|payload| payload.outcome_of(number))?;
        self.outstanding = None;
        Some((number, outcome))
    }
}

impl Payload<'_> {
    /// What this payload says of the message with a number.
    fn outcome_of(&self, number: u32) -> Option<Outcome> {
        match &self.content {
            Content::Ack(numbers) => numbers.contains(&number).then_some(Outcome::Acknowledged),
            Content::Nack(entries) => {
                entries.iter().find(|(named, _)| *named == number).map(|(_, reason)| Outcome::Rejected(*reason))
            }
            _ => None,
        }
    }
}

/// Puts a datagram at the front of the output buffer.
fn write(octets: &[u8], number: u32, out: &mut [u8]) -> Written {
    out[..octets.len()].copy_from_slice(octets);
    Written { number, size: octets.len() }
}
