// The peer of `sheet`: a second reader of Annex E captures and a second call sheet, in plain
// Rust. It was written from docs/FORMATS.md and docs/REFUSALS.md alone, by someone who had not
// seen the proved program. The gate compares the two octet for octet (peer/compare-sheets), and the
// bench takes this one as its measure of speed (bench/sheet).
//
// Usage: sheet < CAPTURE > SHEET
// Build: rustc --edition 2021 -O peer/sheet.rs

use std::io::{self, BufWriter, Read, Write};
use std::process::ExitCode;

const MOST_RECORDS: usize = 999_999;
const SHORTEST_RECORD: usize = 12;
const LONGEST_RECORD: usize = 4_096;
const DATAGRAM_KIND: u16 = 1;

const LONGEST_DATAGRAM: usize = 1_024;
const DATAGRAM_HEADER: usize = 5;
const PAYLOAD_HEADER: usize = 5;

const I_AM_ALIVE: u8 = 3;
const ACK: u8 = 4;
const NACK: u8 = 5;
const NON_STANDARD: u8 = 6;

/// A datagram that passed questions 20 to 28.
struct Datagram {
    number: u32,
    payloads: Vec<Payload>,
}

/// What the sheet tells of one payload.
struct Payload {
    kind: u8,
    call: u16,
    length: u16,
}

/// Why a datagram is refused: the question it fails and where.
struct Fault {
    question: u32,
    offset: usize,
}

/// One record of a capture.
struct Record<'a> {
    address: [u8; 4],
    port: u16,
    seconds: u32,
    datagram: &'a [u8],
}

/// Why a capture is not read on.
struct Stop {
    question: u32,
    record: usize,
}

fn fault<T>(question: u32, offset: usize) -> Result<T, Fault> {
    Err(Fault { question, offset })
}

fn big_u16(octets: &[u8]) -> u16 {
    u16::from_be_bytes([octets[0], octets[1]])
}

fn big_u24(octets: &[u8]) -> u32 {
    u32::from_be_bytes([0, octets[0], octets[1], octets[2]])
}

fn little_u16(octets: &[u8]) -> u16 {
    u16::from_le_bytes([octets[0], octets[1]])
}

fn little_u32(octets: &[u8]) -> u32 {
    u32::from_le_bytes([octets[0], octets[1], octets[2], octets[3]])
}

/// Questions 20 to 28, in the order of docs/REFUSALS.md.
fn read_datagram(octets: &[u8]) -> Result<Datagram, Fault> {
    if octets.len() > LONGEST_DATAGRAM {
        return fault(20, LONGEST_DATAGRAM);
    }
    if octets.len() < DATAGRAM_HEADER {
        return fault(21, octets.len());
    }
    let version = octets[0] >> 4;
    let ack_wanted = octets[0] & 1 == 1;
    let number = big_u24(&octets[1..4]);
    let count = octets[4] as usize + 1;
    if version != 0 {
        return fault(22, 0);
    }

    let mut payloads = Vec::new();
    let mut at = DATAGRAM_HEADER;
    for _ in 0..count {
        let payload = read_payload(octets, at)?;
        at += PAYLOAD_HEADER + payload.length as usize;
        payloads.push(payload);
    }
    if at != octets.len() {
        return fault(27, at);
    }
    if ack_wanted && payloads.iter().all(|p| p.kind == ACK || p.kind == NACK) {
        return fault(28, 0);
    }
    Ok(Datagram { number, payloads })
}

/// Questions 23 to 26 of the payload that begins at offset `at`.
fn read_payload(octets: &[u8], at: usize) -> Result<Payload, Fault> {
    let rest = &octets[at..];
    if rest.len() < PAYLOAD_HEADER {
        return fault(23, at);
    }
    let kind = rest[0] >> 1;
    let call = big_u16(&rest[1..3]);
    let length = big_u16(&rest[3..5]);
    let behind = &rest[PAYLOAD_HEADER..];
    if behind.len() < length as usize {
        return fault(24, at + 3);
    }
    let data = &behind[..length as usize];
    if data.len() < fixed_part(kind) {
        return fault(25, at + PAYLOAD_HEADER);
    }
    if !inner_counts_fit(kind, data) {
        return fault(26, at + PAYLOAD_HEADER);
    }
    Ok(Payload { kind, call, length })
}

/// How many octets the fixed part of a type's structure takes; 0 where it has none.
fn fixed_part(kind: u8) -> usize {
    match kind {
        I_AM_ALIVE => 4,
        ACK | NACK => 1,
        NON_STANDARD => 2,
        _ => 0,
    }
}

/// Whether the counts inside `data` end where it ends; `data` holds the fixed part.
fn inner_counts_fit(kind: u8, data: &[u8]) -> bool {
    match kind {
        I_AM_ALIVE => 4 + (big_u16(&data[2..4]) >> 1) as usize == data.len(),
        ACK => 1 + 3 * (data[0] >> 1) as usize == data.len(),
        NACK => entries_fit(data[0] >> 1, &data[1..]),
        NON_STANDARD => 2 + big_u16(&data[0..2]) as usize <= data.len(),
        _ => true,
    }
}

/// Whether `entries` holds exactly `count` whole entries of a Nack.
fn entries_fit(count: u8, mut entries: &[u8]) -> bool {
    for _ in 0..count {
        if entries.len() < 6 {
            return false;
        }
        let length = 6 + entries[5] as usize;
        if entries.len() < length {
            return false;
        }
        entries = &entries[length..];
    }
    entries.is_empty()
}

/// Questions 40 to 42 of the record at the head of `rest`, which is not empty. Gives the record
/// and what of the file is behind it.
fn read_record(rest: &[u8], record: usize) -> Result<(Record<'_>, &[u8]), Stop> {
    if record > MOST_RECORDS {
        return Err(Stop { question: 42, record });
    }
    if rest.len() < 2 {
        return Err(Stop { question: 40, record });
    }
    let length = little_u16(rest) as usize;
    let rest = &rest[2..];
    if rest.len() < length {
        return Err(Stop { question: 40, record });
    }
    let (fields, behind) = rest.split_at(length);
    if !(SHORTEST_RECORD..=LONGEST_RECORD).contains(&length) || little_u16(fields) != DATAGRAM_KIND {
        return Err(Stop { question: 41, record });
    }
    let found = Record {
        address: [fields[2], fields[3], fields[4], fields[5]],
        port: little_u16(&fields[6..8]),
        seconds: little_u32(&fields[8..12]),
        datagram: &fields[12..],
    };
    Ok((found, behind))
}

/// The lines of one record.
fn write_record(out: &mut impl Write, place: usize, record: &Record) -> io::Result<()> {
    let Record { address: [a, b, c, d], port, seconds, datagram } = record;
    match read_datagram(datagram) {
        Ok(Datagram { number, payloads }) => {
            for Payload { kind, call, length } in payloads {
                writeln!(out, "{place} {seconds} {a}.{b}.{c}.{d}:{port} {number} {kind} {call} {length}")?;
            }
        }
        Err(Fault { question, offset }) => {
            writeln!(out, "{place} {seconds} {a}.{b}.{c}.{d}:{port} fault {question} {offset}")?;
        }
    }
    Ok(())
}

/// The whole sheet of a capture.
fn write_sheet(out: &mut impl Write, capture: &[u8]) -> io::Result<()> {
    writeln!(out, "rec sec from num type call len")?;
    let mut rest = capture;
    let mut place = 1;
    while !rest.is_empty() {
        match read_record(rest, place) {
            Ok((record, behind)) => {
                write_record(out, place, &record)?;
                rest = behind;
                place += 1;
            }
            Err(Stop { question, record }) => {
                writeln!(out, "stop {question} {record}")?;
                break;
            }
        }
    }
    Ok(())
}

fn run() -> io::Result<()> {
    let mut capture = Vec::new();
    io::stdin().lock().read_to_end(&mut capture)?;
    let mut out = BufWriter::new(io::stdout().lock());
    write_sheet(&mut out, &capture)?;
    out.flush()
}

fn main() -> ExitCode {
    match run() {
        Ok(()) => ExitCode::SUCCESS,
        Err(error) => {
            eprintln!("sheet: {error}");
            ExitCode::FAILURE
        }
    }
}
