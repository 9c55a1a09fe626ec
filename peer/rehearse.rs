// The peer of `rehearse`: plays a script of calls on two endpoints and prints the transcript, in plain Rust. It was
// written from docs/REHEARSAL.md and the pages that it names alone, by someone who had not seen the proved program.
// peer/compare-rehearsals compares the two.
//
// Usage: rehearse < SCRIPT > TRANSCRIPT
// Build: rustc --edition 2024 -O peer/rehearse.rs

mod endpoint;
mod stage;

use endpoint::{Book, Peer, Role};
use stage::{Call, SetUp, Side, Stage, Tally};
use std::io::{self, Read, Write};
use std::process::ExitCode;

type Word<'a> = &'a [u8];

const USUAL_ROOM: u64 = 1_024;

/// Why there is no transcript.
enum Failure {
    At { line: usize, reason: String },
    Io(String),
}

fn at<T>(line: usize, reason: &str) -> Result<T, Failure> {
    Err(Failure::At { line, reason: reason.into() })
}

// ---------------------------------------------------------------------------------------------
// Words

fn words(line: &[u8]) -> Vec<Word<'_>> {
    let told = line.split(|octet| *octet == b'#').next().unwrap_or_default();
    told.split(|octet| *octet == b' ').filter(|word| !word.is_empty()).collect()
}

fn number(word: Word) -> Option<u64> {
    if word.is_empty() {
        return None;
    }
    word.iter().try_fold(0u64, |value, octet| {
        let digit = octet.is_ascii_digit().then(|| u64::from(octet - b'0'))?;
        value.checked_mul(10)?.checked_add(digit)
    })
}

fn peer(word: Word) -> Option<Peer> {
    let (address, port) = halves(word, b':')?;
    let port = u16::try_from(number(port)?).ok()?;
    let parts: Option<Vec<u8>> =
        address.split(|octet| *octet == b'.').map(|part| u8::try_from(number(part)?).ok()).collect();
    Some(Peer { address: parts?.try_into().ok()?, port })
}

/// What stands before and behind the first octet of a kind.
fn halves(word: Word, mark: u8) -> Option<(Word, Word)> {
    let at = word.iter().position(|octet| *octet == mark)?;
    Some((&word[..at], &word[at + 1..]))
}

fn octets(word: Word) -> Option<Vec<u8>> {
    if word == b"-" {
        return Some(Vec::new());
    }
    let digit = |octet: &u8| (*octet as char).to_digit(16);
    let pairs = word.chunks_exact(2);
    if !pairs.remainder().is_empty() {
        return None;
    }
    pairs.map(|pair| Some((digit(&pair[0])? << 4 | digit(&pair[1])?) as u8)).collect()
}

fn side(word: Word) -> Option<Side> {
    match word {
        b"left" => Some(Side::Left),
        b"right" => Some(Side::Right),
        _ => None,
    }
}

fn book(word: Word) -> Option<Book> {
    match word {
        b"mask" => Some(Book::Mask),
        b"list" => Some(Book::List),
        _ => None,
    }
}

fn role(word: Word) -> Option<Role> {
    match word {
        b"master" => Some(Role::Master),
        b"slave" => Some(Role::Slave),
        _ => None,
    }
}

fn want(word: Word) -> Option<bool> {
    match word {
        b"ack" => Some(true),
        b"plain" => Some(false),
        _ => None,
    }
}

/// What stands where a line may end in `room N`.
fn room(words: &[Word]) -> Option<u64> {
    match words {
        [] => Some(USUAL_ROOM),
        [b"room", length] => number(length),
        _ => None,
    }
}

// ---------------------------------------------------------------------------------------------
// Lines

fn set_up(words: &[Word], expected: Side) -> Option<SetUp> {
    let [end, address, start, kind] = words else { return None };
    if side(end)? != expected {
        return None;
    }
    Some(SetUp { peer: peer(address)?, start: number(start)?, book: book(kind)? })
}

fn call(words: &[Word]) -> Option<(Side, Call)> {
    let (end, words) = words.split_first()?;
    let call = match words {
        [b"enrol", place, time, address, kind] => {
            Call::Enrol { place: number(place)?, time: number(time)?, peer: peer(address)?, role: role(kind)? }
        }
        [b"send", place, time, wanted, body, rest @ ..] => Call::Send {
            place: number(place)?,
            time: number(time)?,
            ack_wanted: want(wanted)?,
            body: octets(body)?,
            room: room(rest)?,
        },
        [b"tick", place, time, rest @ ..] => {
            Call::Tick { place: number(place)?, time: number(time)?, room: room(rest)? }
        }
        [b"arrive", time, entry, rest @ ..] => Call::Arrive {
            time: number(time)?,
            entry: number(entry).filter(|entry| *entry >= 1)?,
            room: room(rest)?,
        },
        [b"hear", time, address, datagram, rest @ ..] => Call::Hear {
            time: number(time)?,
            peer: peer(address)?,
            octets: octets(datagram)?,
            room: room(rest)?,
        },
        _ => return None,
    };
    Some((side(end)?, call))
}

/// Something read from a script, and the number of its line.
struct Numbered<T> {
    line: usize,
    told: T,
}

struct Script {
    left: Numbered<SetUp>,
    right: Numbered<SetUp>,
    calls: Vec<Numbered<(Side, Call)>>,
}

/// The lines of a script, as an empty rest behind the last newline is none.
fn lines(text: &[u8]) -> Vec<&[u8]> {
    let mut lines: Vec<&[u8]> = text.split(|octet| *octet == b'\n').collect();
    if lines.last().is_some_and(|rest| rest.is_empty()) {
        lines.pop();
    }
    lines
}

fn read_script(text: &[u8]) -> Result<Script, Failure> {
    let lines = lines(text);
    let (mut left, mut right, mut calls) = (None, None, Vec::new());
    for (index, words) in lines.iter().map(|line| words(line)).enumerate().filter(|(_, words)| !words.is_empty()) {
        let line = index + 1;
        if left.is_none() {
            let Some(told) = set_up(&words, Side::Left) else { return at(line, "the left end is set up first") };
            left = Some(Numbered { line, told });
        } else if right.is_none() {
            let Some(told) = set_up(&words, Side::Right) else { return at(line, "the right end is set up second") };
            right = Some(Numbered { line, told });
        } else {
            let Some(told) = call(&words) else { return at(line, "no call is written so") };
            calls.push(Numbered { line, told });
        }
    }
    let (Some(left), Some(right)) = (left, right) else {
        return at(lines.len() + 1, "the script ends before both ends are set up");
    };
    Ok(Script { left, right, calls })
}

// ---------------------------------------------------------------------------------------------
// The transcript

fn play(script: &Script) -> Result<String, Failure> {
    let Script { left, right, calls } = script;
    let mut stage = match Stage::open(left.told, right.told) {
        Ok(stage) => stage,
        Err(Side::Left) => return at(left.line, "the start number is too high"),
        Err(Side::Right) => return at(right.line, "the start number is too high"),
    };
    if left.told.peer == right.told.peer {
        return at(right.line, "the two ends have the same address and port");
    }
    let mut transcript = String::new();
    for (index, Numbered { line, told: (side, call) }) in calls.iter().enumerate() {
        let answer = stage.call(*side, call).or_else(|stray| at(*line, stray))?;
        transcript += &format!("{} {} {} {answer}\n", index + 1, side.word(), call.word());
    }
    for side in [Side::Left, Side::Right] {
        transcript += &closing_line(side, &stage.tally(side));
    }
    Ok(transcript)
}

fn closing_line(side: Side, tally: &Tally) -> String {
    let Tally { sent, resent, handed, acknowledged, rejected, unanswered } = tally;
    let side = side.word();
    format!(
        "{side} sent {sent} resent {resent} handed {handed} acknowledged {acknowledged} rejected {rejected} unanswered {unanswered}\n"
    )
}

fn run() -> Result<(), Failure> {
    let mut text = Vec::new();
    let cannot = |what: &str, error: io::Error| Failure::Io(format!("cannot {what}: {error}"));
    io::stdin().lock().read_to_end(&mut text).map_err(|error| cannot("read the script", error))?;
    let transcript = play(&read_script(&text)?)?;
    let mut out = io::stdout().lock();
    let written = out.write_all(transcript.as_bytes()).and_then(|()| out.flush());
    written.map_err(|error| cannot("write the transcript", error))
}

fn main() -> ExitCode {
    match run() {
        Ok(()) => return ExitCode::SUCCESS,
        Err(Failure::At { line, reason }) => eprintln!("rehearse: line {line}: {reason}"),
        Err(Failure::Io(reason)) => eprintln!("rehearse: {reason}"),
    }
    ExitCode::FAILURE
}
