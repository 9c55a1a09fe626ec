// Writes capture files for the peer to be compared on, always the same ones: every file has its
// own fixed seed. Written from docs/FORMATS.md and docs/REFUSALS.md alone, like peer/sheet.rs.
//
// Usage: captures OUTDIR           the files of peer/compare-sheets, into a folder that exists
//        captures --good N FILE    one capture of N good datagrams of the usual shape
//        captures --worst N FILE   one capture of N datagrams whose sheet is as long as can be
// Build: rustc --edition 2021 -O peer/captures.rs

use std::fs;
use std::io;
use std::path::Path;
use std::process::ExitCode;

const LONGEST_DATAGRAM: usize = 1_024;
const HEADER: usize = 5;
const MOST_RECORDS: usize = 999_999;

const MESSAGE: u8 = 1;
const ALIVE: u8 = 3;
const ACK: u8 = 4;
const NACK: u8 = 5;
const NON_STANDARD: u8 = 6;
const STRUCTURES: [u8; 4] = [ALIVE, ACK, NACK, NON_STANDARD];

// ---------------------------------------------------------------------------------------------
// Chance, always the same

/// splitmix64.
struct Random(u64);

impl Random {
    fn next(&mut self) -> u64 {
        self.0 = self.0.wrapping_add(0x9E37_79B9_7F4A_7C15);
        let mut z = self.0;
        z = (z ^ (z >> 30)).wrapping_mul(0xBF58_476D_1CE4_E5B9);
        z = (z ^ (z >> 27)).wrapping_mul(0x94D0_49BB_1331_11EB);
        z ^ (z >> 31)
    }

    /// One of 0 .. n - 1.
    fn below(&mut self, n: usize) -> usize {
        (self.next() % n as u64) as usize
    }

    /// One of low ..= high.
    fn between(&mut self, low: usize, high: usize) -> usize {
        low + self.below(high - low + 1)
    }

    fn one_in(&mut self, n: usize) -> bool {
        self.below(n) == 0
    }

    fn pick<T: Copy>(&mut self, from: &[T]) -> T {
        from[self.below(from.len())]
    }

    fn octets(&mut self, n: usize) -> Vec<u8> {
        (0..n).map(|_| self.next() as u8).collect()
    }

    /// A number of at most `bits` bits; every length in decimal comes up.
    fn wide(&mut self, bits: usize) -> u32 {
        let bits = self.below(bits + 1);
        (self.next() & ((1 << bits) - 1)) as u32
    }
}

// ---------------------------------------------------------------------------------------------
// The data of structures

fn alive(validity: u16, cookie: &[u8], reply: u8) -> Vec<u8> {
    let mut data = validity.to_be_bytes().to_vec();
    data.extend(((cookie.len() as u16) << 1 | reply as u16).to_be_bytes());
    data.extend(cookie);
    data
}

fn ack(numbers: &[u32]) -> Vec<u8> {
    let mut data = vec![(numbers.len() as u8) << 1];
    for number in numbers {
        data.extend(&number.to_be_bytes()[1..]);
    }
    data
}

fn nack(entries: &[(u32, u16, Vec<u8>)]) -> Vec<u8> {
    let mut data = vec![(entries.len() as u8) << 1];
    for (number, reason, more) in entries {
        data.extend(&number.to_be_bytes()[1..]);
        data.extend(reason.to_be_bytes());
        data.push(more.len() as u8);
        data.extend(more);
    }
    data
}

fn non_standard(oid: &[u8], free: &[u8]) -> Vec<u8> {
    let mut data = (oid.len() as u16).to_be_bytes().to_vec();
    data.extend(oid);
    data.extend(free);
    data
}

fn some_alive(r: &mut Random, most: usize) -> Vec<u8> {
    let cookie = if r.one_in(3) { 0 } else { r.below(most - 3) };
    let (validity, reply) = (r.wide(16) as u16, r.below(2) as u8);
    alive(validity, &r.octets(cookie), reply)
}

fn some_ack(r: &mut Random, most: usize) -> Vec<u8> {
    let count = r.between(0, 127.min((most - 1) / 3));
    let numbers: Vec<u32> = (0..count).map(|_| r.wide(24)).collect();
    ack(&numbers)
}

fn some_nack(r: &mut Random, most: usize) -> Vec<u8> {
    let mut room = most - 1;
    let mut entries = Vec::new();
    let wanted = if r.one_in(4) { 127 } else { r.below(9) };
    let longest = r.pick(&[0, 1, 3, 20, 255]);
    while entries.len() < wanted && room >= 6 {
        let length = r.between(0, longest.min(room - 6));
        room -= 6 + length;
        entries.push((r.wide(24), r.wide(16) as u16, r.octets(length)));
    }
    nack(&entries)
}

fn some_non_standard(r: &mut Random, most: usize) -> Vec<u8> {
    let oid = r.between(0, most - 2);
    let free = if r.one_in(2) { 0 } else { r.between(0, most - 2 - oid) };
    let oid = r.octets(oid);
    non_standard(&oid, &r.octets(free))
}

/// Good data for a type, of at most `most` octets, which are 4 or more.
fn good_data(r: &mut Random, kind: u8, most: usize) -> Vec<u8> {
    match kind {
        ALIVE => some_alive(r, most),
        ACK => some_ack(r, most),
        NACK => some_nack(r, most),
        NON_STANDARD => some_non_standard(r, most),
        _ => {
            let length = r.between(0, most);
            r.octets(length)
        }
    }
}

// ---------------------------------------------------------------------------------------------
// Payloads and datagrams

/// A payload with its LENGTH as it should be.
fn payload(kind: u8, call: u16, data: &[u8]) -> Vec<u8> {
    payload_saying(kind, call, data.len() as u16, data)
}

/// A payload whose LENGTH says what it likes.
fn payload_saying(kind: u8, call: u16, length: u16, data: &[u8]) -> Vec<u8> {
    let mut octets = vec![kind << 1];
    octets.extend(call.to_be_bytes());
    octets.extend(length.to_be_bytes());
    octets.extend(data);
    octets
}

/// A datagram with its COUNT as it should be.
fn datagram(first: u8, number: u32, payloads: &[Vec<u8>]) -> Vec<u8> {
    datagram_saying(first, number, (payloads.len() - 1) as u8, payloads)
}

/// A datagram whose COUNT says what it likes.
fn datagram_saying(first: u8, number: u32, count: u8, payloads: &[Vec<u8>]) -> Vec<u8> {
    let mut octets = vec![first];
    octets.extend(&number.to_be_bytes()[1..]);
    octets.push(count);
    for payload in payloads {
        octets.extend(payload);
    }
    octets
}

fn some_kind(r: &mut Random) -> u8 {
    match r.below(10) {
        0..=2 => MESSAGE,
        3..=8 => r.pick(&STRUCTURES),
        _ => r.below(128) as u8,
    }
}

fn kind_of(payload: &[u8]) -> u8 {
    payload[0] >> 1
}

/// Whether a datagram of these payloads may have A set.
fn may_want_ack(payloads: &[Vec<u8>]) -> bool {
    payloads.iter().any(|p| kind_of(p) != ACK && kind_of(p) != NACK)
}

/// 1 to `count` good payloads with data of at most `most` octets each, which fit a datagram.
fn good_payloads(r: &mut Random, count: usize, most: usize) -> Vec<Vec<u8>> {
    let mut room = LONGEST_DATAGRAM - HEADER;
    let mut payloads = Vec::new();
    for _ in 0..r.between(1, count) {
        if room < HEADER + 4 {
            break;
        }
        let kind = some_kind(r);
        let data = good_data(r, kind, most.min(room - HEADER));
        room -= HEADER + data.len();
        payloads.push(payload(kind, r.wide(16) as u16, &data));
    }
    payloads
}

fn some_first(r: &mut Random, payloads: &[Vec<u8>]) -> u8 {
    if may_want_ack(payloads) { r.below(2) as u8 } else { 0 }
}

/// A datagram of these payloads that passes every question, if they do.
fn sound(r: &mut Random, payloads: &[Vec<u8>]) -> Vec<u8> {
    let first = some_first(r, payloads);
    datagram(first, r.wide(24), payloads)
}

fn good_datagram(r: &mut Random) -> Vec<u8> {
    let count = r.pick(&[1, 2, 4, 8, 40]);
    let most = r.pick(&[4, 12, 60, 300, 1_014]);
    let payloads = good_payloads(r, count, most);
    sound(r, &payloads)
}

/// A good datagram of a few short payloads, for what is tried octet by octet.
fn short_datagram(r: &mut Random) -> Vec<u8> {
    let payloads = good_payloads(r, 4, 40);
    sound(r, &payloads)
}

/// Puts `odd` before, between or behind good payloads.
fn among_good(odd: Vec<u8>, r: &mut Random) -> Vec<Vec<u8>> {
    let mut payloads = match r.below(3) {
        0 => Vec::new(),
        _ => good_payloads(r, 3, 40),
    };
    let place = r.between(0, payloads.len());
    payloads.insert(place, odd);
    payloads
}

// ---------------------------------------------------------------------------------------------
// Captures

#[derive(Default)]
struct Capture {
    octets: Vec<u8>,
}

impl Capture {
    fn record(&mut self, address: [u8; 4], port: u16, seconds: u32, datagram: &[u8]) {
        self.octets.extend((12 + datagram.len() as u16).to_le_bytes());
        self.octets.extend(1u16.to_le_bytes());
        self.octets.extend(address);
        self.octets.extend(port.to_le_bytes());
        self.octets.extend(seconds.to_le_bytes());
        self.octets.extend(datagram);
    }

    /// A record from somewhere at some time.
    fn some(&mut self, datagram: &[u8], r: &mut Random) {
        let address = [0; 4].map(|_: u8| r.wide(8) as u8);
        let (port, seconds) = (r.wide(16) as u16, r.wide(32));
        self.record(address, port, seconds, datagram);
    }
}

type Fill = fn(&mut Random, &mut Capture);

fn fill_good(r: &mut Random, c: &mut Capture) {
    for _ in 0..20_000 {
        let good = good_datagram(r);
        c.some(&good, r);
    }
}

fn fill_types(r: &mut Random, c: &mut Capture) {
    for kind in 0..=127 {
        for most in [4, 5, 6, 8, 20, 100, 400, 1_014] {
            for _ in 0..3 {
                let data = good_data(r, kind, most);
                let one = payload(kind, r.wide(16) as u16, &data);
                let good = sound(r, &[one]);
                c.some(&good, r);
            }
        }
        for length in 0..8 {
            let any = payload(kind, 7, &r.octets(length));
            c.some(&datagram(0, 1, &[any.clone()]), r);
            c.some(&datagram(1, 1, &[any]), r);
        }
    }
}

fn fill_alives(r: &mut Random, c: &mut Capture) {
    for cookie in (0..1_011).chain([0, 1, 127, 128, 255, 256, 1_009, 1_010]) {
        for reply in 0..2 {
            let data = alive(r.wide(16) as u16, &r.octets(cookie), reply);
            let one = payload(ALIVE, r.wide(16) as u16, &data);
            let good = sound(r, &[one]);
            c.some(&good, r);
        }
    }
}

fn fill_acks(r: &mut Random, c: &mut Capture) {
    for count in 0..128 {
        for first in [0, 0, 0, 1] {
            let numbers: Vec<u32> = (0..count).map(|_| r.wide(24)).collect();
            let one = payload(ACK, r.wide(16) as u16, &ack(&numbers));
            c.some(&datagram(first, r.wide(24), &[one]), r);
        }
    }
}

fn fill_nacks(r: &mut Random, c: &mut Capture) {
    for count in 0..128 {
        let entries: Vec<_> = (0..count).map(|_| (r.wide(24), r.wide(16) as u16, r.octets(2))).collect();
        let short = nack(&entries);
        let entries: Vec<_> = (0..count).map(|_| (7, r.wide(16) as u16, Vec::new())).collect();
        for data in [short, nack(&entries)] {
            let one = payload(NACK, r.wide(16) as u16, &data);
            for first in [0, 1] {
                c.some(&datagram(first, r.wide(24), &[one.clone()]), r);
            }
        }
    }
    for length in 0..256 {
        let entries = [(r.wide(24), 1, r.octets(length)), (r.wide(24), 2, r.octets(255 - length))];
        let one = payload(NACK, r.wide(16) as u16, &nack(&entries));
        c.some(&datagram(0, r.wide(24), &[one]), r);
    }
    for _ in 0..3_000 {
        let one = payload(NACK, r.wide(16) as u16, &some_nack(r, 1_014));
        let payloads = [one, payload(MESSAGE, 1, &[])];
        let good = if payloads[0].len() > 1_014 { sound(r, &payloads[..1]) } else { sound(r, &payloads) };
        c.some(&good, r);
    }
}

fn fill_non_standards(r: &mut Random, c: &mut Capture) {
    for length in 0..30 {
        for oid in (0..32).chain([255, 256, 1_012, 1_013, 32_767, 32_768, 65_533, 65_534, 65_535]) {
            let mut data = (oid as u16).to_be_bytes().to_vec();
            data.extend(r.octets(30));
            data.truncate(length);
            let payloads = among_good(payload(NON_STANDARD, r.wide(16) as u16, &data), r);
            let either = sound(r, &payloads);
            c.some(&either, r);
        }
    }
    for _ in 0..1_500 {
        let one = payload(NON_STANDARD, r.wide(16) as u16, &some_non_standard(r, 1_014));
        let good = sound(r, &[one]);
        c.some(&good, r);
    }
}

fn fill_truncated(r: &mut Random, c: &mut Capture) {
    for _ in 0..350 {
        let good = short_datagram(r);
        for length in 0..=good.len() {
            c.some(&good[..length], r);
        }
    }
    let long = loop {
        let good = good_datagram(r);
        if good.len() > 900 {
            break good;
        }
    };
    for length in 0..=long.len() {
        c.some(&long[..length], r);
    }
}

fn fill_overlong(r: &mut Random, c: &mut Capture) {
    for _ in 0..4_000 {
        let mut over = good_datagram(r);
        let more = r.pick(&[1, 1, 1, 2, 3, 4, 5, 6, 20, 200, 1_020]);
        over.extend(r.octets(more));
        c.some(&over, r);
    }
}

/// Good data of a type with one of its inner counts, or its end, not as it should be.
fn miscounted_data(r: &mut Random, kind: u8) -> Vec<u8> {
    let mut data = good_data(r, kind, 60);
    let step = r.pick(&[1, 1, 1, 2, 3, 6, 7, 127]);
    let up = r.one_in(2);
    match r.below(4) {
        0 if up => data.extend(r.octets(step)),
        0 => data.truncate(data.len().saturating_sub(step)),
        1 if kind == NACK && data.len() > 6 => shift(&mut data[6..7], step, up),
        1 | 2 => shift_count(kind, &mut data, step, up),
        _ => {
            shift_count(kind, &mut data, 1, up);
            let size = match kind { ACK => 3, NACK => 6, _ => 1 };
            let slip = r.below(3);
            let size = (size + slip).saturating_sub(1);
            if up { data.extend(vec![0; size]) } else { data.truncate(data.len().saturating_sub(size)) }
        }
    }
    data
}

fn shift_count(kind: u8, data: &mut [u8], step: usize, up: bool) {
    match kind {
        ALIVE => shift(&mut data[2..4], 2 * step, up),
        NON_STANDARD => shift(&mut data[0..2], step, up),
        ACK | NACK => shift(&mut data[0..1], 2 * step, up),
        _ => (),
    }
}

/// Adds to, or takes from, the one or two octets of a big-endian number.
fn shift(field: &mut [u8], step: usize, up: bool) {
    let value = field.iter().fold(0usize, |value, octet| value << 8 | *octet as usize);
    let value = if up { value.wrapping_add(step) } else { value.wrapping_sub(step) };
    let octets = (value as u16).to_be_bytes();
    field.copy_from_slice(&octets[2 - field.len()..]);
}

fn fill_miscounted(r: &mut Random, c: &mut Capture) {
    for _ in 0..26_000 {
        let kind = r.pick(&STRUCTURES);
        let data = miscounted_data(r, kind);
        let payloads = among_good(payload(kind, r.wide(16) as u16, &data), r);
        let odd = sound(r, &payloads);
        c.some(&odd, r);
    }
}

/// LENGTH off by a little, by much, or at its edges.
fn fill_lengths(r: &mut Random, c: &mut Capture) {
    for _ in 0..8_000 {
        let kind = some_kind(r);
        let data = good_data(r, kind, 40);
        let length = data.len() as u16;
        let step = r.pick(&[1, 1, 2, 5, 10, 256]);
        let said = match r.below(4) {
            0 => length.wrapping_add(step),
            1 => length.saturating_sub(step),
            2 => r.pick(&[0, 1, 255, 256, 1_014, 1_015, 32_767, 32_768, 65_530, 65_531, 65_535]),
            _ => length,
        };
        let payloads = among_good(payload_saying(kind, r.wide(16) as u16, said, &data), r);
        let odd = sound(r, &payloads);
        c.some(&odd, r);
    }
}

fn fill_flipped(r: &mut Random, c: &mut Capture) {
    for _ in 0..30_000 {
        let mut odd = if r.one_in(4) { good_datagram(r) } else { short_datagram(r) };
        for _ in 0..r.between(1, 3) {
            let place = if r.one_in(3) { r.below(16.min(odd.len())) } else { r.below(odd.len()) };
            odd[place] ^= 1 << r.below(8);
        }
        c.some(&odd, r);
    }
}

fn fill_reserved(r: &mut Random, c: &mut Capture) {
    for _ in 0..6_000 {
        let mut payloads = good_payloads(r, 5, 40);
        for p in &mut payloads {
            p[0] |= r.below(2) as u8;
            if kind_of(p) == ACK || kind_of(p) == NACK {
                p[HEADER] |= r.below(2) as u8;
            }
        }
        let first = some_first(r, &payloads) | (r.below(8) as u8) << 1;
        c.some(&datagram(first, r.wide(24), &payloads), r);
    }
}

/// Datagrams of exactly 1,020 to 1,030 octets, good and not; most payloads that fit, and more.
fn fill_limits(r: &mut Random, c: &mut Capture) {
    for kind in [MESSAGE, ALIVE, NON_STANDARD, 0, 127] {
        for length in 1_020..1_030 {
            let size = length - 2 * HEADER;
            let data = match kind {
                ALIVE => alive(9, &r.octets(size - 4), 1),
                NON_STANDARD => non_standard(&r.octets(9), &r.octets(size - 11)),
                _ => r.octets(size),
            };
            c.some(&datagram(0, 1, &[payload(kind, 2, &data)]), r);
            c.some(&datagram(0x10, 1, &[payload(kind, 2, &data)]), r);
        }
    }
    for length in 1_015..1_035 {
        c.some(&vec![0; length], r);
        c.some(&vec![0xFF; length], r);
        let any = r.octets(length);
        c.some(&any, r);
    }
    let empty = payload(MESSAGE, 3, &[]);
    for count in (1..=256).chain([202, 203, 204, 205, 255, 256]) {
        c.some(&datagram(0, 4, &vec![empty.clone(); count]), r);
        let kinds: Vec<_> = (0..count).map(|i| payload((i % 3) as u8, 3, &[])).collect();
        c.some(&datagram(1, 4, &kinds), r);
    }
    for promised in 0..=255 {
        c.some(&datagram_saying(1, 5, promised, &vec![empty.clone(); 203]), r);
        c.some(&datagram_saying(1, 5, promised, &[empty.clone()]), r);
        c.some(&datagram_saying(0, 5, promised, &[]), r);
    }
    for last in 0..12 {
        let mut full = vec![empty.clone(); 202];
        full.push(payload(MESSAGE, 3, &r.octets(last)));
        c.some(&datagram(0, 4, &full), r);
    }
}

fn fill_counts(r: &mut Random, c: &mut Capture) {
    for _ in 0..7_000 {
        let mut odd = good_datagram(r);
        let step = r.pick(&[1, 1, 1, 2, 3, 10, 100]);
        let up = r.one_in(2);
        shift(&mut odd[4..5], step, up);
        c.some(&odd, r);
    }
}

/// Every row of up to four payloads of these types, with A set; some of them clear.
fn fill_wanted(r: &mut Random, c: &mut Capture) {
    let kinds = [ACK, NACK, MESSAGE, ALIVE, NON_STANDARD, 0, 20];
    for length in 1..=4u32 {
        for row in 0..kinds.len().pow(length) {
            let mut payloads = Vec::new();
            let mut left = row;
            for _ in 0..length {
                let kind = kinds[left % kinds.len()];
                left /= kinds.len();
                payloads.push(payload(kind, r.wide(16) as u16, &good_data(r, kind, 12)));
            }
            let first = if r.one_in(8) { 0 } else { 1 };
            c.some(&datagram(first, r.wide(24), &payloads), r);
        }
    }
    for count in 1..=145 {
        let mut acks = vec![payload(ACK, 1, &[0]); count];
        c.some(&datagram(1, 1, &acks), r);
        acks.push(payload(r.pick(&[2, 3, 5, 6, 36, 68]), 1, &[0, 0, 0, 0]));
        c.some(&datagram(1, 1, &acks), r);
    }
}

/// Several things wrong at once, so that the order of the questions shows.
fn fill_several(r: &mut Random, c: &mut Capture) {
    for _ in 0..12_000 {
        let kinds = if r.one_in(2) { vec![ACK, NACK] } else { vec![ACK, NACK, ALIVE, NON_STANDARD, MESSAGE] };
        let mut payloads = Vec::new();
        for _ in 0..r.between(1, 3) {
            let kind = r.pick(&kinds);
            let data = if r.one_in(4) { miscounted_data(r, kind) } else { good_data(r, kind, 20) };
            let slip = if r.one_in(6) { r.between(1, 3) as u16 } else { 0 };
            let said = (data.len() as u16).saturating_add(slip);
            payloads.push(payload_saying(kind, r.wide(16) as u16, said, &data));
        }
        let first = r.pick(&[0, 1, 1, 1, 1, 1, 1, 0x11]);
        let mut odd = datagram(first, r.wide(24), &payloads);
        if r.one_in(4) {
            let up = r.one_in(2);
            shift(&mut odd[4..5], 1, up);
        }
        match r.below(6) {
            0 => odd.extend(r.octets(3)),
            1 => odd.truncate(r.between(0, odd.len())),
            2 if r.one_in(4) => odd.resize(1_025, 0),
            _ => (),
        }
        c.some(&odd, r);
    }
}

fn fill_versions(r: &mut Random, c: &mut Capture) {
    for first in 0..=255 {
        for _ in 0..4 {
            let payloads = good_payloads(r, 3, 30);
            let mut odd = datagram(first, r.wide(24), &payloads);
            c.some(&odd, r);
            if r.one_in(4) {
                odd.truncate(r.between(0, 12));
                c.some(&odd, r);
            }
        }
    }
}

fn fill_random(r: &mut Random, c: &mut Capture) {
    for _ in 0..10_000 {
        let length = r.pick(&[8, 16, 40, 200, 1_030]);
        let length = r.between(0, length);
        let any = r.octets(length);
        c.some(&any, r);
    }
}

/// Small octets, so that counts and lengths often fit by chance.
fn fill_nearly_random(r: &mut Random, c: &mut Capture) {
    for _ in 0..16_000 {
        let mut any = vec![r.below(2) as u8, 0, 0, r.below(9) as u8, r.below(3) as u8];
        for _ in 0..=any[4] {
            any.extend([r.between(6, 13) as u8, 0, r.below(3) as u8, 0, r.below(12) as u8]);
            for _ in 0..r.below(12) {
                any.push(r.below(5) as u8);
            }
        }
        c.some(&any, r);
    }
}

fn fill_short(r: &mut Random, c: &mut Capture) {
    for length in 0..16 {
        for fill in [0x00, 0x01, 0x08, 0x0F, 0x10, 0xFF] {
            c.some(&vec![fill; length], r);
        }
        for _ in 0..60 {
            let mut any = r.octets(length);
            if length > 0 {
                any[0] &= 0x0F;
            }
            c.some(&any, r);
        }
    }
    for _ in 0..500 {
        c.some(&[], r);
    }
}

/// Datagrams over 1,024 octets, up to the 4,084 that a record holds.
fn fill_large(r: &mut Random, c: &mut Capture) {
    let edges = [1_024, 1_025, 1_026, 2_047, 2_048, 2_049, 4_081, 4_082, 4_083, 4_084];
    for i in 0..600 {
        let length = if i < edges.len() { edges[i] } else { r.between(1_000, 4_084) };
        let large = match r.below(3) {
            0 => r.octets(length),
            1 => datagram(0, 6, &[payload(MESSAGE, 1, &r.octets(length - 10))]),
            _ => vec![r.pick(&[0, 16, 255]); length],
        };
        c.some(&large, r);
    }
}

/// Every field that is printed, at the edges of its length in decimal.
fn fill_fields(r: &mut Random, c: &mut Capture) {
    let mut edges = vec![0u32, u32::MAX, 1 << 31, (1 << 31) - 1, 0xFF_FFFF, 0x1_0000, 0xFFFF, 0x8000, 0x7FFF, 256, 255, 127];
    for digits in 0..10 {
        let ten = 10u32.pow(digits);
        edges.extend([ten - 1, ten, ten + 1]);
    }
    for &a in &edges {
        for &b in &edges {
            let address = [a as u8, b as u8, (a >> 8) as u8, (b >> 8) as u8];
            let data = vec![0; (b % 1_015) as usize];
            let good = datagram(1, a & 0xFF_FFFF, &[payload(127, b as u16, &data)]);
            c.record(address, a as u16, b, &good);
            c.record(address, b as u16, a, &good[..good.len().min(a as usize % 11)]);
        }
    }
    for octet in 0..=255 {
        c.record([octet; 4], octet as u16, octet as u32, &datagram(0, octet as u32, &[payload(2, octet as u16, &[])]));
        c.record([octet, 0, octet, 255], 1, 1, &r.octets(3));
    }
}

const EXAMPLE_1: &str = "18 00 01 00 0A 00 00 07 B8 06 3C 00 00 00 01 00 00 05 00 02 00 01 00 02 AB CD";
const EXAMPLE_2: &str = "0F 00 01 00 0A 00 00 07 B8 06 3D 00 00 00 00 00 00";

fn hex(text: &str) -> Vec<u8> {
    text.split_whitespace().map(|octet| u8::from_str_radix(octet, 16).expect("hexadecimal")).collect()
}

/// What the two documents show octet by octet.
fn fill_documents(r: &mut Random, c: &mut Capture) {
    c.octets.extend(hex(EXAMPLE_1));
    c.octets.extend(hex(EXAMPLE_2));
    for shown in [
        "00 00 00 09 00 08 00 00 00 04 02 00 00 05",
        "00 00 00 09 01 08 00 00 00 04 02 00 00 05",
        "01 00 00 09 00 08 00 00 00 04 02 00 00 05",
        "",
        "10 00 00 00 00",
        "00 00 00 00 00",
        "00 00 00 00 00 02 00 00 00 01",
        "00 00 00 00 00 08 00 00 00 00",
        "00 00 00 00 00 08 00 00 00 01 02",
        "00 00 00 00 00 02 00 00 00 00 00",
        "01 00 00 00 00 08 00 00 00 01 00",
    ] {
        c.some(&hex(shown), r);
    }
    c.some(&[0; 1_025], r);
}

/// The captures that are read to their end.
const WHOLE: [(&str, Fill); 23] = [
    ("documents", fill_documents),
    ("good", fill_good),
    ("types", fill_types),
    ("alives", fill_alives),
    ("acks", fill_acks),
    ("nacks", fill_nacks),
    ("non-standards", fill_non_standards),
    ("truncated", fill_truncated),
    ("overlong", fill_overlong),
    ("miscounted", fill_miscounted),
    ("lengths", fill_lengths),
    ("flipped", fill_flipped),
    ("reserved", fill_reserved),
    ("limits", fill_limits),
    ("counts", fill_counts),
    ("wanted", fill_wanted),
    ("several", fill_several),
    ("versions", fill_versions),
    ("random", fill_random),
    ("nearly-random", fill_nearly_random),
    ("short", fill_short),
    ("large", fill_large),
    ("fields", fill_fields),
];

fn write(folder: &Path, name: &str, octets: &[u8]) -> io::Result<()> {
    fs::write(folder.join(format!("{name}.capture")), octets)
}

fn write_whole(folder: &Path) -> io::Result<()> {
    for (seed, (name, fill)) in WHOLE.iter().enumerate() {
        let mut capture = Capture::default();
        fill(&mut Random(seed as u64 + 1), &mut capture);
        write(folder, name, &capture.octets)?;
    }
    Ok(())
}

// ---------------------------------------------------------------------------------------------
// Broken files

/// Three records, cut at every octet: the empty file and files that end with a record are among
/// them.
fn write_cut(folder: &Path) -> io::Result<()> {
    let mut three = [hex(EXAMPLE_1), hex(EXAMPLE_2)].concat();
    three.extend(hex("0C 00 01 00 01 02 03 04 05 06 07 08 09 0A"));
    for length in 0..=three.len() {
        write(folder, &format!("cut-{length}"), &three[..length])?;
    }
    Ok(())
}

/// A single octet, of some values.
fn write_single(folder: &Path) -> io::Result<()> {
    for octet in [0x00, 0x01, 0x0A, 0x0C, 0x18, 0xFF] {
        write(folder, &format!("octet-{octet}"), &[octet])?;
    }
    Ok(())
}

/// Lengths and kinds, good and not, with one octet too few behind, just enough, one more, and a
/// good record more.
fn write_lengths_and_kinds(folder: &Path) -> io::Result<()> {
    for length in [0, 1, 2, 3, 10, 11, 12, 13, 4_095, 4_096, 4_097, 5_000, 32_768, 65_535u16] {
        for kind in [0, 1, 2, 256, 257, 65_535u16] {
            let mut record = kind.to_le_bytes().to_vec();
            record.resize(length.max(2) as usize, 0);
            record.truncate(length as usize);
            let whole = [&length.to_le_bytes()[..], &record[..]].concat();
            let name = format!("length-{length}-kind-{kind}");
            write(folder, &format!("{name}-few"), &whole[..whole.len() - 1])?;
            write(folder, &format!("{name}-end"), &whole)?;
            write(folder, &format!("{name}-more"), &[&whole[..], &[1]].concat())?;
            let between = [hex(EXAMPLE_1), whole, hex(EXAMPLE_2), hex(EXAMPLE_1)].concat();
            write(folder, &format!("{name}-between"), &between)?;
        }
    }
    Ok(())
}

/// Many good records, then a broken one, then more good ones, which are not read.
fn write_broken_late(folder: &Path) -> io::Result<()> {
    let mut r = Random(200);
    for i in 0..20 {
        let mut capture = Capture::default();
        for _ in 0..r.between(50, 400) {
            let good = good_datagram(&mut r);
            capture.some(&good, &mut r);
        }
        let broken = capture.octets.len();
        for _ in 0..3 {
            let good = good_datagram(&mut r);
            capture.some(&good, &mut r);
        }
        match i % 4 {
            0 => capture.octets.truncate(broken + r.between(1, 20)),
            1 => capture.octets[broken + 2 + r.below(2)] ^= 1 << r.below(8),
            2 => capture.octets[broken + 1] ^= 1 << r.between(4, 7),
            _ => capture.octets[broken..broken + 2].copy_from_slice(&[r.below(12) as u8, 0]),
        }
        write(folder, &format!("late-{i}"), &capture.octets)?;
    }
    Ok(())
}

/// Files at the limit of 999,999 records, of the shortest records there are.
fn write_limit(folder: &Path) -> io::Result<()> {
    let shortest = hex("0C 00 01 00 FF 00 0A 63 FF FF 00 00 00 00");
    let wrong_kind = hex("0C 00 02 00 FF 00 0A 63 FF FF 00 00 00 00");
    let most = shortest.repeat(MOST_RECORDS);
    let one_less = &most[shortest.len()..];
    write(folder, "limit-just", &most)?;
    write(folder, "limit-over-whole", &[&most[..], &shortest].concat())?;
    write(folder, "limit-over-two", &[&most[..], &shortest, &shortest].concat())?;
    write(folder, "limit-over-octet", &[&most[..], &[12]].concat())?;
    write(folder, "limit-over-partial", &[&most[..], &shortest[..13]].concat())?;
    write(folder, "limit-over-kind", &[&most[..], &wrong_kind].concat())?;
    write(folder, "limit-last-partial", &[one_less, &shortest[..13]].concat())?;
    write(folder, "limit-last-kind", &[one_less, &wrong_kind].concat())
}

fn write_all(folder: &Path) -> io::Result<()> {
    write_whole(folder)?;
    write_cut(folder)?;
    write_single(folder)?;
    write_lengths_and_kinds(folder)?;
    write_broken_late(folder)?;
    write_limit(folder)
}

// ---------------------------------------------------------------------------------------------
// For the bench

fn usual_payload(r: &mut Random) -> Vec<u8> {
    let call = (r.below(2) << 15 | r.between(1, 4_000)) as u16;
    match r.below(10) {
        0 => {
            let cookie = r.pick(&[0, 0, 4, 16]);
            payload(ALIVE, 0, &alive(60, &r.octets(cookie), 1))
        }
        1 => {
            let numbers: Vec<u32> = (0..r.between(1, 4)).map(|_| r.below(1 << 24) as u32).collect();
            payload(ACK, 0, &ack(&numbers))
        }
        _ => {
            let length = r.between(20, 300);
            payload(MESSAGE, call, &r.octets(length))
        }
    }
}

fn usual_datagram(r: &mut Random, number: u32) -> Vec<u8> {
    let mut payloads = Vec::new();
    let mut room = LONGEST_DATAGRAM - HEADER;
    for _ in 0..r.between(1, 4) {
        let next = usual_payload(r);
        if next.len() <= room {
            room -= next.len();
            payloads.push(next);
        }
    }
    datagram(may_want_ack(&payloads) as u8, number, &payloads)
}

/// Good datagrams as some trunk gateways would send them to each other.
fn write_good(count: usize, file: &str) -> io::Result<()> {
    let mut r = Random(300);
    let mut capture = Capture::default();
    for i in 0..count {
        let address = [10, 20, r.below(4) as u8, r.between(1, 16) as u8];
        let seconds = 1_700_000_000 + (i / 200) as u32;
        let good = usual_datagram(&mut r, 1_000_000 + i as u32);
        capture.record(address, 2_517, seconds, &good);
    }
    fs::write(file, capture.octets)
}

/// The longest sheet for its capture: 100,000 shortest records, so that record numbers have six
/// digits, and then datagrams of 203 empty payloads with every field as long as can be.
fn write_worst(count: usize, file: &str) -> io::Result<()> {
    let mut capture = Capture::default();
    let longest = datagram(1, 0xFF_FFFF, &vec![payload(127, u16::MAX, &[]); 203]);
    for _ in 0..100_000 {
        capture.record([255; 4], u16::MAX, u32::MAX, &[]);
    }
    for _ in 0..count {
        capture.record([255; 4], u16::MAX, u32::MAX, &longest);
    }
    fs::write(file, capture.octets)
}

fn main() -> ExitCode {
    let arguments: Vec<String> = std::env::args().skip(1).collect();
    let arguments: Vec<&str> = arguments.iter().map(String::as_str).collect();
    let done = match arguments[..] {
        ["--good", count, file] => count.parse().map_err(io::Error::other).and_then(|n| write_good(n, file)),
        ["--worst", count, file] => count.parse().map_err(io::Error::other).and_then(|n| write_worst(n, file)),
        [folder] if !folder.starts_with('-') => write_all(Path::new(folder)),
        _ => Err(io::Error::other("usage: captures OUTDIR | --good N FILE | --worst N FILE")),
    };
    match done {
        Ok(()) => ExitCode::SUCCESS,
        Err(error) => {
            eprintln!("captures: {error}");
            ExitCode::FAILURE
        }
    }
}
