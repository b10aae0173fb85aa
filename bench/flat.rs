//! What the store's layout can do at best, in plain Rust: the same tables of rows in order, searched
//! by halves, moved by memmove. It is there to be measured beside `settle`, and prints the same.
//!
//!     rustc -O --edition 2024 flat.rs
//!     flat FILE
//!
//! Nothing is proved, and nothing is checked but what the days of `generate.rs` have: it has no
//! capacity limits and refuses with 4, 5 and 6 only. So terms and times must be within bounds. It
//! reads files by itself, as the peer does: each is one file that stands alone.

use std::io::{self, Write};
use std::ops::Range;
use std::{env, error::Error, fs, mem, process::ExitCode};

// ---- Rows -------------------------------------------------------------------------------------

// All numbers have 64 bits, as in the store: a visit has five, a reading and a line have four.

#[derive(Clone, Copy)]
struct Visit {
    card: u64,
    from: u64,
    to: u64,
    count: u64,
    sum: u64,
}

impl Visit {
    fn of(reading: &Reading) -> Visit {
        let Reading { card, time, amount, .. } = *reading;
        Visit { card, from: time, to: time, count: 1, sum: amount }
    }

    fn key(&self) -> (u64, u64) {
        (self.card, self.from)
    }

    fn merge(&mut self, other: &Visit) {
        self.from = self.from.min(other.from);
        self.to = self.to.max(other.to);
        self.count += other.count;
        self.sum += other.sum;
    }
}

#[derive(Clone, Copy)]
struct Reading {
    card: u64,
    time: u64,
    serial: u64,
    amount: u64,
}

impl Reading {
    fn key(&self) -> (u64, u64, u64) {
        (self.card, self.time, self.serial)
    }
}

struct Line {
    card: u64,
    day: u64,
    visits: u64,
    sum: u64,
}

impl Line {
    fn key(&self) -> (u64, u64) {
        (self.card, self.day)
    }
}

// ---- The command file -------------------------------------------------------------------------

const TERMS_LENGTH: usize = 24;
const READING_LENGTH: usize = 21;
const WATERMARK_LENGTH: usize = 9;

struct Terms {
    gap: u64,
    lateness: u64,
    day_length: u64,
}

enum Command {
    Reading(Reading),
    Watermark(u64),
}

/// The commands of a file that are still to be done, up to the first that cannot be read.
struct Commands<'a>(&'a [u8]);

impl Iterator for Commands<'_> {
    type Item = Command;

    fn next(&mut self) -> Option<Command> {
        let (command, length) = match self.0.first()? {
            0 => (read_reading(self.0.first_chunk()?), READING_LENGTH),
            1 => (read_watermark(self.0.first_chunk()?), WATERMARK_LENGTH),
            _ => return None,
        };
        self.0 = &self.0[length..];
        Some(command)
    }
}

fn read_terms(bytes: &[u8; TERMS_LENGTH]) -> Terms {
    Terms { gap: u64_at(bytes, 0), lateness: u64_at(bytes, 8), day_length: u64_at(bytes, 16) }
}

fn read_reading(bytes: &[u8; READING_LENGTH]) -> Command {
    // On file the serial comes before the time.
    let (card, serial) = (u32_at(bytes, 1), u32_at(bytes, 5));
    let (time, amount) = (u64_at(bytes, 9), u32_at(bytes, 17));
    Command::Reading(Reading { card, time, serial, amount })
}

fn read_watermark(bytes: &[u8; WATERMARK_LENGTH]) -> Command {
    Command::Watermark(u64_at(bytes, 1))
}

fn u32_at(bytes: &[u8], at: usize) -> u64 {
    u32::from_le_bytes(bytes[at..at + 4].try_into().expect("four bytes")).into()
}

fn u64_at(bytes: &[u8], at: usize) -> u64 {
    u64::from_le_bytes(bytes[at..at + 8].try_into().expect("eight bytes"))
}

// ---- The printed text -------------------------------------------------------------------------

/// Digits are written here: `write!` would take longer than some commands.
struct Text(Vec<u8>);

impl Text {
    /// The text goes out when it is so long.
    const PIECE: usize = 1 << 16;

    fn new() -> Text {
        Text(Vec::with_capacity(2 * Text::PIECE))
    }

    fn visit(&mut self, sign: u8, visit: &Visit) {
        self.0.push(sign);
        for number in [visit.card, visit.from, visit.to, visit.count, visit.sum] {
            self.0.push(b' ');
            self.number(number);
        }
        self.0.push(b'\n');
    }

    fn refusal(&mut self, number: u64, place: u64) {
        self.named(b"refused ", number);
        self.named(b" at ", place);
        self.0.push(b'\n');
    }

    fn line(&mut self, line: &Line) {
        self.named(b"card ", line.card);
        self.named(b" day ", line.day);
        self.named(b" visits ", line.visits);
        self.named(b" sum ", line.sum);
        self.0.push(b'\n');
    }

    fn named(&mut self, name: &[u8], number: u64) {
        self.0.extend_from_slice(name);
        self.number(number);
    }

    fn number(&mut self, mut number: u64) {
        // No number of 64 bits has more digits.
        let mut digits = [0; 20];
        let mut first = digits.len();
        loop {
            first -= 1;
            digits[first] = b'0' + (number % 10) as u8;
            number /= 10;
            if number == 0 {
                break;
            }
        }
        self.0.extend_from_slice(&digits[first..]);
    }
}

// ---- The state --------------------------------------------------------------------------------

struct Ledger {
    day_length: u64,
    /// By card and day.
    lines: Vec<Line>,
}

impl Ledger {
    fn add(&mut self, visit: &Visit) {
        let (card, day) = self.line_key(visit);
        let place = self.place((card, day));
        match self.lines.get_mut(place) {
            Some(line) if line.key() == (card, day) => {
                line.visits += 1;
                line.sum += visit.sum;
            }
            _ => self.lines.insert(place, Line { card, day, visits: 1, sum: visit.sum }),
        }
    }

    /// The visit is among those that were added, so it has a line.
    fn take(&mut self, visit: &Visit) {
        let place = self.place(self.line_key(visit));
        let line = &mut self.lines[place];
        if line.visits == 1 {
            self.lines.remove(place);
        } else {
            line.visits -= 1;
            line.sum -= visit.sum;
        }
    }

    fn place(&self, key: (u64, u64)) -> usize {
        self.lines.partition_point(|line| line.key() < key)
    }

    /// A visit counts on the day on which it began.
    fn line_key(&self, visit: &Visit) -> (u64, u64) {
        (visit.card, visit.from / self.day_length)
    }
}

struct Flat {
    gap: u64,
    lateness: u64,
    watermark: u64,
    /// The live visits, by card and from.
    visits: Vec<Visit>,
    /// The kept readings, by card, time and serial.
    readings: Vec<Reading>,
    ledger: Ledger,
}

impl Flat {
    fn new(terms: Terms) -> Flat {
        let Terms { gap, lateness, day_length } = terms;
        let ledger = Ledger { day_length, lines: Vec::new() };
        Flat { gap, lateness, watermark: 0, visits: Vec::new(), readings: Vec::new(), ledger }
    }

    fn step(&mut self, command: Command, text: &mut Text) {
        match command {
            Command::Reading(reading) => self.reading(reading, text),
            Command::Watermark(watermark) => self.advance(watermark, text),
        }
    }

    fn reading(&mut self, reading: Reading, text: &mut Text) {
        if reading.time + self.lateness < self.watermark {
            return text.refusal(4, reading.time);
        }
        let place = self.readings.partition_point(|kept| kept.key() < reading.key());
        if self.readings.get(place).is_some_and(|kept| kept.key() == reading.key()) {
            return text.refusal(5, reading.time);
        }
        self.readings.insert(place, reading);
        self.merge(Visit::of(&reading), text);
    }

    /// Puts the visit of one reading among the live ones.
    fn merge(&mut self, mut visit: Visit, text: &mut Text) {
        let near = self.near(&visit);
        for part in &self.visits[near.clone()] {
            if self.is_closed(part) {
                self.ledger.take(part);
                text.visit(b'-', part);
            }
            visit.merge(part);
        }
        self.replace(near, visit);
        if self.is_closed(&visit) {
            self.ledger.add(&visit);
            text.visit(b'+', &visit);
        }
    }

    /// The visits are more than gap apart, so those near to a time can only be the last that begins
    /// before it and the first that does not.
    fn near(&self, visit: &Visit) -> Range<usize> {
        let Visit { card, from: time, .. } = *visit;
        let place = self.visits.partition_point(|v| v.key() < (card, time));
        let reaches = |v: &Visit| v.card == card && time <= v.to + self.gap;
        let is_reached = |v: &Visit| v.card == card && v.from <= time + self.gap;
        let first = place - usize::from(self.visits[..place].last().is_some_and(reaches));
        let end = place + usize::from(self.visits.get(place).is_some_and(is_reached));
        first..end
    }

    /// Puts a visit in place of its parts: none, one or two.
    fn replace(&mut self, parts: Range<usize>, whole: Visit) {
        if parts.is_empty() {
            return self.visits.insert(parts.start, whole);
        }
        self.visits[parts.start] = whole;
        if parts.len() == 2 {
            self.visits.remove(parts.start + 1);
        }
    }

    /// A larger watermark closes visits, and retracts none.
    fn advance(&mut self, watermark: u64, text: &mut Text) {
        if watermark < self.watermark {
            return text.refusal(6, watermark);
        }
        let old = mem::replace(&mut self.watermark, watermark);
        for visit in &self.visits {
            if self.is_closed(visit) && old <= visit.to + self.gap {
                self.ledger.add(visit);
                text.visit(b'+', visit);
            }
        }
        self.expire();
    }

    /// Forgets what no reading that could still be taken can reach. Only a watermark makes such.
    fn expire(&mut self) {
        let (gap, earliest) = (self.gap, self.watermark.saturating_sub(self.lateness));
        self.visits.retain(|visit| earliest <= visit.to + gap);
        self.readings.retain(|reading| earliest <= reading.time);
    }

    fn is_closed(&self, visit: &Visit) -> bool {
        visit.to + self.gap < self.watermark
    }
}

// ---- The program ------------------------------------------------------------------------------

/// Does all commands and prints the text of section 12.
fn run(flat: &mut Flat, commands: Commands, out: &mut impl Write) -> io::Result<()> {
    let mut text = Text::new();
    for command in commands {
        flat.step(command, &mut text);
        if text.0.len() >= Text::PIECE {
            out.write_all(&text.0)?;
            text.0.clear();
        }
    }
    for line in &flat.ledger.lines {
        text.line(line);
    }
    out.write_all(&text.0)?;
    out.flush()
}

fn work() -> Result<(), Box<dyn Error>> {
    let path = env::args_os().nth(1).ok_or("usage: flat FILE")?;
    let file = fs::read(path)?;
    let Some((terms, commands)) = file.split_first_chunk() else {
        return Err(format!("the file has {} bytes; the terms alone take 24", file.len()).into());
    };
    let mut flat = Flat::new(read_terms(terms));
    run(&mut flat, Commands(commands), &mut io::stdout().lock())?;
    Ok(())
}

fn main() -> ExitCode {
    match work() {
        Ok(()) => ExitCode::SUCCESS,
        Err(error) => {
            eprintln!("flat: {error}");
            ExitCode::FAILURE
        }
    }
}
