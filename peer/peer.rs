//! The peer of the visit store: an independent program for the same rules, written from
//! docs/RULES.md alone. It reads a command file (section 11) and prints the text of section 12,
//! as `recompute` does. It has no capacity limits, so it never refuses with 1 or 7.
//!
//!     rustc -O --edition 2024 peer.rs
//!     peer [FILE]        (standard input without FILE)
//!
//! It is incremental: a command costs the logarithm of what is alive, for each visit it touches.
//! Whatever no later command can reach is forgotten at once; only the ledger grows.

use std::collections::{BTreeMap, BTreeSet};
use std::io::{self, BufWriter, Read, Write};
use std::{env, error::Error, fmt, fs, process::ExitCode};

/// Times, watermarks, gap and lateness are below this (section 2).
const TIME_BOUND: u64 = 1 << 40;

// ---- The command file -----------------------------------------------------------------------

const TERMS_LENGTH: usize = 24;
const READING_LENGTH: usize = 21;
const WATERMARK_LENGTH: usize = 9;

#[derive(Default)]
struct Terms {
    gap: u64,
    lateness: u64,
    day_length: u64,
}

struct Reading {
    card: u32,
    time: u64,
    serial: u32,
    amount: u32,
}

enum Command {
    Reading(Reading),
    Watermark(u64),
}

/// The commands of a file, up to the first that cannot be read. `at` is the byte where the next
/// one begins, so at the end it tells where reading stopped.
struct Commands<'a> {
    file: &'a [u8],
    at: usize,
}

impl Iterator for Commands<'_> {
    type Item = Command;

    fn next(&mut self) -> Option<Command> {
        let rest = &self.file[self.at..];
        let (command, length) = match rest.first()? {
            0 => (read_reading(rest.first_chunk()?), READING_LENGTH),
            1 => (read_watermark(rest.first_chunk()?), WATERMARK_LENGTH),
            _ => return None,
        };
        self.at += length;
        Some(command)
    }
}

fn read_terms(bytes: &[u8; TERMS_LENGTH]) -> Terms {
    Terms { gap: u64_at(bytes, 0), lateness: u64_at(bytes, 8), day_length: u64_at(bytes, 16) }
}

fn read_reading(bytes: &[u8; READING_LENGTH]) -> Command {
    // On file the serial comes before the time.
    let (card, serial) = (u32_at(bytes, 1), u32_at(bytes, 5));
    let (time, amount) = (u64_at(bytes, 9), u32_at(bytes, 17));
    Command::Reading(Reading { card, time, serial, amount })
}

fn read_watermark(bytes: &[u8; WATERMARK_LENGTH]) -> Command {
    Command::Watermark(u64_at(bytes, 1))
}

fn u32_at(bytes: &[u8], at: usize) -> u32 {
    u32::from_le_bytes(bytes[at..at + 4].try_into().expect("four bytes"))
}

fn u64_at(bytes: &[u8], at: usize) -> u64 {
    u64::from_le_bytes(bytes[at..at + 8].try_into().expect("eight bytes"))
}

// ---- Visits, lines, refusals ------------------------------------------------------------------

#[derive(Clone, Copy)]
struct Visit {
    card: u32,
    from: u64,
    to: u64,
    count: u64,
    sum: u64,
}

impl Visit {
    fn of(reading: &Reading) -> Visit {
        let Reading { card, time, amount, .. } = *reading;
        Visit { card, from: time, to: time, count: 1, sum: u64::from(amount) }
    }

    fn merge(&mut self, other: &Visit) {
        self.from = self.from.min(other.from);
        self.to = self.to.max(other.to);
        self.count += other.count;
        self.sum += other.sum;
    }
}

impl fmt::Display for Visit {
    fn fmt(&self, f: &mut fmt::Formatter) -> fmt::Result {
        write!(f, "{} {} {} {} {}", self.card, self.from, self.to, self.count, self.sum)
    }
}

#[derive(Default)]
struct Line {
    visits: u64,
    sum: u64,
}

/// Why a command is not taken: number and place of section 10.
type Refusal = (u32, u64);

impl Terms {
    fn check(&self) -> Result<(), Refusal> {
        match self {
            Terms { gap: TIME_BOUND.., .. } => Err((2, 0)),
            Terms { lateness: TIME_BOUND.., .. } => Err((2, 1)),
            Terms { day_length: 0, .. } => Err((2, 2)),
            _ => Ok(()),
        }
    }
}

// ---- The state --------------------------------------------------------------------------------

/// What one command did to the closed visits. One is used for all commands, to save allocations.
#[derive(Default)]
struct Changes {
    retracted: Vec<Visit>,
    added: Vec<Visit>,
}

#[derive(Default)]
struct Peer {
    terms: Terms,
    watermark: u64,
    /// The live visits, by card and from: the neighbours of a time stand beside it.
    visits: BTreeMap<(u32, u64), Visit>,
    /// The same visits as (to, card, from): those that a watermark closes, and those that it
    /// expires, stand together.
    ends: BTreeSet<(u64, u32, u64)>,
    /// The readings taken that would not be too late now, as (time, card, serial): the first are
    /// the first to be forgotten.
    seen: BTreeSet<(u64, u32, u32)>,
    /// By card and day.
    ledger: BTreeMap<(u32, u64), Line>,
}

impl Peer {
    /// Does one command. `changes` is empty before, and stays so if the command is refused.
    fn step(&mut self, command: &Command, changes: &mut Changes) -> Result<(), Refusal> {
        // Bad terms refuse everything, so the sums below cannot overflow.
        self.terms.check()?;
        match command {
            Command::Reading(reading) => self.reading(reading, changes)?,
            Command::Watermark(watermark) => self.advance(*watermark, changes)?,
        }
        self.post(changes);
        Ok(())
    }

    fn reading(&mut self, reading: &Reading, changes: &mut Changes) -> Result<(), Refusal> {
        if reading.time >= TIME_BOUND {
            return Err((3, 2));
        }
        if reading.time + self.terms.lateness < self.watermark {
            return Err((4, reading.time));
        }
        if !self.seen.insert((reading.time, reading.card, reading.serial)) {
            return Err((5, reading.time));
        }
        self.merge(Visit::of(reading), changes);
        Ok(())
    }

    /// Puts the visit of one reading among the live ones. Since those are more than gap apart, at
    /// most two are near to it, and they are the last ones that begin by time + gap.
    fn merge(&mut self, mut visit: Visit, changes: &mut Changes) {
        let (card, time, gap) = (visit.card, visit.from, self.terms.gap);
        let begun = self.visits.range((card, 0)..=(card, time + gap)).rev();
        let mut near = begun.map(|(_, v)| *v).take_while(|v| time <= v.to + gap);
        let (last, last_but_one) = (near.next(), near.next());

        for near in last_but_one.iter().chain(&last) {
            if self.is_closed(near) {
                changes.retracted.push(*near);
            }
            visit.merge(near);
        }
        if self.is_closed(&visit) {
            changes.added.push(visit);
        }
        for near in last_but_one.iter().chain(&last) {
            self.replace(near, &visit);
        }
        self.visits.insert((card, visit.from), visit);
        self.ends.insert((visit.to, card, visit.from));
    }

    /// Removes a visit that becomes part of another, unless that one takes its place anyway.
    fn replace(&mut self, part: &Visit, whole: &Visit) {
        if part.from != whole.from {
            self.visits.remove(&(part.card, part.from));
        }
        if (part.from, part.to) != (whole.from, whole.to) {
            self.ends.remove(&(part.to, part.card, part.from));
        }
    }

    /// A larger watermark closes visits, and retracts none.
    fn advance(&mut self, watermark: u64, changes: &mut Changes) -> Result<(), Refusal> {
        if watermark >= TIME_BOUND {
            return Err((3, 1));
        }
        if watermark < self.watermark {
            return Err((6, watermark));
        }
        // Those with `to + gap` from the old watermark on and below the new one.
        let first = (self.watermark.saturating_sub(self.terms.gap), 0, 0);
        let end = (watermark.saturating_sub(self.terms.gap), 0, 0);
        let closing = self.ends.range(first..end);
        changes.added.extend(closing.map(|&(_, card, from)| self.visits[&(card, from)]));
        changes.added.sort_unstable_by_key(|visit| (visit.card, visit.from));

        self.watermark = watermark;
        self.expire();
        Ok(())
    }

    /// Forgets what no reading that could still be taken can reach. Only a watermark makes such.
    fn expire(&mut self) {
        let earliest = self.watermark.saturating_sub(self.terms.lateness);
        while self.seen.first().is_some_and(|&(time, ..)| time < earliest) {
            self.seen.pop_first();
        }
        while let Some(&(to, card, from)) = self.ends.first()
            && to + self.terms.gap < earliest
        {
            self.ends.pop_first();
            self.visits.remove(&(card, from));
        }
    }

    /// Brings the ledger up to date with the changes of a command.
    fn post(&mut self, changes: &Changes) {
        for visit in &changes.retracted {
            let key = self.line_key(visit);
            let line = self.ledger.get_mut(&key).expect("a closed visit stands in the ledger");
            line.visits -= 1;
            line.sum -= visit.sum;
            if line.visits == 0 {
                self.ledger.remove(&key);
            }
        }
        for visit in &changes.added {
            let line = self.ledger.entry(self.line_key(visit)).or_default();
            line.visits += 1;
            line.sum += visit.sum;
        }
    }

    /// A visit counts on the day on which it began.
    fn line_key(&self, visit: &Visit) -> (u32, u64) {
        (visit.card, visit.from / self.terms.day_length)
    }

    fn is_closed(&self, visit: &Visit) -> bool {
        visit.to + self.terms.gap < self.watermark
    }
}

// ---- The program ------------------------------------------------------------------------------

/// Does all commands and prints the text of section 12.
fn run(peer: &mut Peer, commands: &mut Commands, out: &mut impl Write) -> io::Result<()> {
    let mut changes = Changes::default();
    for command in commands {
        match peer.step(&command, &mut changes) {
            Ok(()) => print_changes(&mut changes, out)?,
            Err((number, place)) => writeln!(out, "refused {number} at {place}")?,
        }
    }
    for ((card, day), Line { visits, sum }) in &peer.ledger {
        writeln!(out, "card {card} day {day} visits {visits} sum {sum}")?;
    }
    out.flush()
}

/// Prints the changes and empties them for the next command.
fn print_changes(changes: &mut Changes, out: &mut impl Write) -> io::Result<()> {
    for visit in changes.retracted.drain(..) {
        writeln!(out, "- {visit}")?;
    }
    for visit in changes.added.drain(..) {
        writeln!(out, "+ {visit}")?;
    }
    Ok(())
}

fn read_input() -> Result<Vec<u8>, Box<dyn Error>> {
    let mut arguments = env::args_os().skip(1);
    let (path, surplus) = (arguments.next(), arguments.next());
    if surplus.is_some() {
        return Err("usage: peer [FILE]".into());
    }
    let Some(path) = path else {
        let mut file = Vec::new();
        io::stdin().lock().read_to_end(&mut file)?;
        return Ok(file);
    };
    fs::read(&path).map_err(|error| format!("{}: {error}", path.display()).into())
}

fn work() -> Result<(), Box<dyn Error>> {
    let file = read_input()?;
    let Some(terms) = file.first_chunk() else {
        return Err(format!("the file has {} bytes; the terms alone take 24", file.len()).into());
    };
    let mut peer = Peer { terms: read_terms(terms), ..Peer::default() };
    let mut commands = Commands { file: &file, at: TERMS_LENGTH };
    let mut out = BufWriter::with_capacity(1 << 16, io::stdout().lock());
    run(&mut peer, &mut commands, &mut out)?;
    if commands.at < file.len() {
        eprintln!("peer: stopped at byte {}: the command is cut or of unknown kind", commands.at);
    }
    Ok(())
}

fn main() -> ExitCode {
    match work() {
        Ok(()) => ExitCode::SUCCESS,
        Err(error) => {
            eprintln!("peer: {error}");
            ExitCode::FAILURE
        }
    }
}
