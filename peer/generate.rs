//! Writes random command files (docs/RULES.md, section 11) for comparing programs.
//!
//!     rustc -O --edition 2024 generate.rs
//!     generate SEED COUNT DIR [COMMANDS]
//!
//! writes DIR/00000.day, DIR/00001.day and so on, COUNT of them. Day number i depends on SEED and
//! i alone. Without COMMANDS every day has a shape of its own (see `Shape::random`). With COMMANDS
//! every day has that many commands and is steady, for measuring: 30 cards, a moving watermark, a
//! ledger of some 3,000 lines however long the day is.
//!
//! No day asks for more than 64 live visits, 256 kept readings or 4,096 lines (see `Bound`), so
//! that a store of these capacities refuses nothing with 7.

mod chance;
mod commands;

use chance::Chance;
use commands::{Command, Reading, write_command};
use std::collections::{BTreeSet, HashSet};
use std::ops::Bound::{Excluded, Unbounded};
use std::{env, error::Error, fs, path::Path, process::ExitCode};

const TIME_BOUND: u64 = 1 << 40;

// ---- Choices ----------------------------------------------------------------------------------

impl Chance {
    fn pick<T: Copy>(&mut self, choices: &[T]) -> T {
        choices[self.index(choices.len())]
    }

    /// The number itself or one beside it: edges are where mistakes are.
    fn edge(&mut self, n: u64) -> u64 {
        match self.below(4) {
            0 => n.saturating_sub(1),
            1 => n.saturating_add(1),
            _ => n,
        }
    }
}

// ---- Shapes -----------------------------------------------------------------------------------

/// What a day is like. Shares are in percent.
struct Shape {
    gap: u64,
    lateness: u64,
    day_length: u64,
    commands: u64,
    cards: Vec<u32>,
    serials: u64,
    /// Where time begins.
    start: u64,
    /// How far time moves on with a command, at most.
    pace: u64,
    /// How far readings are from the present, at most.
    spread: u64,
    watermarks: u64,
    duplicates: u64,
    /// Readings and watermarks on an edge: of a visit, or of what is too late.
    edges: u64,
    bursts: u64,
    /// Numbers out of bounds, or as large as they may be.
    extremes: u64,
}

impl Shape {
    fn random(chance: &mut Chance) -> Shape {
        let small = chance.between(1, 12);
        let gap = size(chance, small);
        let lateness = size(chance, small * 3);
        let card_count = chance.pick(&[1, 1, 2, 3, 5, 12, 40]);
        let commands = match chance.below(20) {
            0 => chance.between(200, 800),
            1..=3 => chance.between(60, 200),
            _ => chance.between(1, 60),
        };
        Shape {
            gap,
            lateness,
            day_length: chance.pick(&[1, 2, 7, 20, 100, 100, 86_400, TIME_BOUND, u64::MAX]),
            commands,
            cards: (0..card_count).map(|_| card(chance)).collect(),
            serials: chance.pick(&[1, 2, 2, 5]),
            start: match chance.below(24) {
                0 => TIME_BOUND - chance.between(1, 300),
                1 | 2 => chance.below(TIME_BOUND),
                3 | 4 => 0,
                _ => chance.below(200),
            },
            pace: chance.pick(&[0, 1, 2, 3, 5, 10, 20, small * 4]),
            spread: chance.pick(&[0, 2, 10, small * 2, small * 8]),
            watermarks: chance.pick(&[3, 10, 20, 35, 60]),
            duplicates: chance.pick(&[0, 5, 10, 30]),
            edges: chance.pick(&[0, 10, 30, 60]),
            bursts: chance.pick(&[0, 5, 20]),
            extremes: chance.pick(&[0, 0, 0, 2, 5]),
        }
    }

    /// A long day as it might be: most readings in time, some late, twice or too late.
    fn steady(commands: u64) -> Shape {
        let (pace, days) = (1, 80);
        Shape {
            gap: 20,
            lateness: 40,
            day_length: commands * pace / 2 / days + 1,
            commands,
            cards: (1..=30).collect(),
            serials: 2,
            start: 100,
            pace,
            spread: 15,
            watermarks: 15,
            duplicates: 4,
            edges: 4,
            bursts: 2,
            extremes: 0,
        }
    }
}

/// A gap or lateness: none, small, middling or large.
fn size(chance: &mut Chance, small: u64) -> u64 {
    match chance.below(10) {
        0 | 1 => 0,
        2..=6 => chance.between(1, small),
        7 => chance.between(20, 200),
        8 => chance.between(1_000, 1_000_000),
        _ => TIME_BOUND - chance.between(1, 50),
    }
}

fn card(chance: &mut Chance) -> u32 {
    match chance.below(20) {
        0 => u32::MAX,
        1 => 0,
        2 => chance.next() as u32,
        _ => chance.between(1, 60) as u32,
    }
}

fn amount(chance: &mut Chance) -> u32 {
    match chance.below(30) {
        0 => u32::MAX,
        1 => chance.next() as u32,
        _ => chance.below(10) as u32,
    }
}

// ---- Capacity ---------------------------------------------------------------------------------

/// Knows the watermark, and keeps the readings within what a small store can hold. A reading is
/// alive here as long as a visit that ends with it is live: that is longer than a store keeps it.
struct Bound {
    gap: u64,
    lateness: u64,
    day_length: u64,
    watermark: u64,
    alive: Vec<Reading>,
    /// Card, time and serial of the alive readings.
    order: BTreeSet<(u32, u64, u32)>,
    /// How many of them begin a visit, if there were no others: just as many visits are live.
    visits: usize,
    /// Cards and days of all readings ever: no visit can begin on another.
    lines: HashSet<(u32, u64)>,
}

impl Bound {
    /// A store refuses a reading with 7 that finds 64 live visits or 256 kept readings.
    const VISITS: usize = 63;
    const READINGS: usize = 255;
    const LINES: usize = 4_000;

    fn new(shape: &Shape) -> Bound {
        Bound {
            gap: shape.gap,
            lateness: shape.lateness,
            day_length: shape.day_length,
            watermark: 0,
            alive: Vec::new(),
            order: BTreeSet::new(),
            visits: 0,
            lines: HashSet::new(),
        }
    }

    /// Whether the command may be written; if so, it counts from now on.
    fn admit(&mut self, command: &Command) -> bool {
        match command {
            Command::Reading(reading) => self.admit_reading(reading),
            Command::Watermark(watermark) => {
                self.advance(*watermark);
                true
            }
        }
    }

    fn admit_reading(&mut self, reading: &Reading) -> bool {
        let (key, line) = (key(reading), (reading.card, reading.time / self.day_length));
        if reading.time >= TIME_BOUND
            || reading.time + self.lateness < self.watermark
            || self.order.contains(&key)
        {
            return true; // It will be refused, and adds nothing.
        }
        let new_line = !self.lines.contains(&line);
        if self.alive.len() == Self::READINGS || self.lines.len() == Self::LINES && new_line {
            return false;
        }
        self.enter(key);
        if self.visits > Self::VISITS {
            self.leave(key);
            return false;
        }
        self.alive.push(*reading);
        self.lines.insert(line);
        true
    }

    fn advance(&mut self, watermark: u64) {
        if watermark < self.watermark || watermark >= TIME_BOUND {
            return;
        }
        self.watermark = watermark;
        let reach = self.gap + self.lateness;
        let gone = self.alive.extract_if(.., |reading| reading.time + reach < watermark);
        for reading in gone.collect::<Vec<_>>() {
            self.leave(key(&reading));
        }
    }

    /// Puts a reading in; only of itself and of the next one it can change whether they begin.
    fn enter(&mut self, key: (u32, u64, u32)) {
        self.visits -= self.next_begins(key);
        self.order.insert(key);
        self.visits += self.begins(key) + self.next_begins(key);
    }

    fn leave(&mut self, key: (u32, u64, u32)) {
        self.visits -= self.begins(key) + self.next_begins(key);
        self.order.remove(&key);
        self.visits += self.next_begins(key);
    }

    fn next_begins(&self, key: (u32, u64, u32)) -> usize {
        let next = self.order.range((Excluded(key), Unbounded)).next();
        next.map_or(0, |next| self.begins(*next))
    }

    /// 1 if the reading begins a visit, else 0.
    fn begins(&self, key: (u32, u64, u32)) -> usize {
        let before = self.order.range(..key).next_back();
        let goes_on = before.is_some_and(|b| b.0 == key.0 && key.1 <= b.1 + self.gap);
        usize::from(!goes_on)
    }
}

fn key(reading: &Reading) -> (u32, u64, u32) {
    (reading.card, reading.time, reading.serial)
}

// ---- Days -------------------------------------------------------------------------------------

struct Day<'a> {
    chance: &'a mut Chance,
    shape: Shape,
    bound: Bound,
    /// The present: readings are about it, and watermarks behind it.
    now: u64,
    /// The last reading; a burst goes on from it.
    last: Option<Reading>,
    burst: u64,
}

impl Day<'_> {
    fn command(&mut self) -> Command {
        self.now += self.chance.between(0, self.shape.pace);
        if self.chance.percent(25) {
            // A watermark may have run ahead; without this all would be too late from then on.
            self.now = self.now.max(self.bound.watermark);
        }
        // What does not fit is thrown away, and a watermark comes instead to make room.
        let command = match self.chance.percent(self.shape.watermarks) {
            true => Command::Watermark(self.watermark()),
            false => Command::Reading(self.reading()),
        };
        let command = match self.bound.admit(&command) {
            true => command,
            false => self.make_room(),
        };
        if let Command::Reading(reading) = &command {
            self.last = Some(*reading);
        }
        command
    }

    fn make_room(&mut self) -> Command {
        let watermark = match self.bound.alive.is_empty() || self.chance.percent(50) {
            true => self.watermark(),
            false => {
                let reading = self.chance.pick(&self.bound.alive);
                self.chance.edge(reading.time + self.shape.gap + self.shape.lateness)
            }
        };
        self.bound.advance(watermark);
        Command::Watermark(watermark)
    }

    fn watermark(&mut self) -> u64 {
        let Shape { gap, lateness, spread, edges, extremes, .. } = self.shape;
        if self.chance.percent(extremes) {
            let largest = [TIME_BOUND - 1, TIME_BOUND, TIME_BOUND + 1, u64::MAX];
            return self.chance.pick(&largest);
        }
        if !self.bound.alive.is_empty() && self.chance.percent(edges) {
            // Where a visit is closed, where it expires, where a reading is too late.
            let time = self.chance.pick(&self.bound.alive).time;
            let after = self.chance.pick(&[gap, gap, gap + lateness, lateness, 0]);
            return self.chance.edge(time + after);
        }
        let stands = self.bound.watermark;
        match self.chance.below(20) {
            0 => stands,
            1 => stands.saturating_sub(self.chance.between(1, 20)),
            2 => self.chance.below(stands + 1),
            3 => stands + self.chance.between(0, spread),
            // The usual one: somewhat behind the present, and not back.
            _ => self.now.saturating_sub(self.chance.between(0, spread)).max(stands),
        }
    }

    fn reading(&mut self) -> Reading {
        if let Some(reading) = self.burst_goes_on() {
            return reading;
        }
        if !self.bound.alive.is_empty() && self.chance.percent(self.shape.duplicates) {
            return self.duplicate();
        }
        let time = match self.chance.percent(self.shape.edges) {
            true => return self.reading_on_edge(),
            false => self.time(),
        };
        self.fresh(time)
    }

    fn fresh(&mut self, time: u64) -> Reading {
        let serial = match self.chance.percent(self.shape.extremes) {
            true => u32::MAX,
            false => self.chance.below(self.shape.serials) as u32,
        };
        let card = self.chance.pick(&self.shape.cards);
        Reading { card, time, serial, amount: amount(self.chance) }
    }

    fn time(&mut self) -> u64 {
        if self.chance.percent(self.shape.extremes) {
            let largest = [TIME_BOUND - 1, TIME_BOUND, TIME_BOUND + 1, u64::MAX];
            return self.chance.pick(&largest);
        }
        let spread = self.shape.spread;
        (self.now + self.chance.between(0, spread)).saturating_sub(self.chance.between(0, spread))
    }

    /// Several readings of a card, each about gap after the one before, or at once.
    fn burst_goes_on(&mut self) -> Option<Reading> {
        if self.burst == 0 && self.chance.percent(self.shape.bursts) {
            self.burst = self.chance.between(2, 8);
        }
        self.burst = self.burst.checked_sub(1)?;
        let last = self.last.filter(|last| last.time < TIME_BOUND)?;
        let pause = match self.chance.below(4) {
            0 => 0,
            1 => self.chance.edge(self.shape.gap),
            _ => self.chance.between(0, self.shape.gap),
        };
        Some(Reading { card: last.card, ..self.fresh(last.time.saturating_add(pause)) })
    }

    /// The same reading again; every second time with an amount of its own.
    fn duplicate(&mut self) -> Reading {
        let reading = self.chance.pick(&self.bound.alive);
        match self.chance.percent(50) {
            true => reading,
            false => Reading { amount: amount(self.chance), ..reading },
        }
    }

    /// A reading that just is or is not too late, or near to another one before or after it.
    fn reading_on_edge(&mut self) -> Reading {
        let Shape { gap, lateness, .. } = self.shape;
        if self.bound.alive.is_empty() || self.chance.percent(40) {
            let time = self.chance.edge(self.bound.watermark.saturating_sub(lateness));
            return self.fresh(time);
        }
        let beside = self.chance.pick(&self.bound.alive);
        let pause = self.chance.pick(&[gap, gap, gap * 2, gap / 2]);
        let pause = self.chance.edge(pause);
        let time = match self.chance.percent(50) {
            true => beside.time + pause,
            false => beside.time.saturating_sub(pause),
        };
        Reading { card: beside.card, ..self.fresh(time) }
    }
}

// ---- Files ------------------------------------------------------------------------------------

fn write_terms(terms: [u64; 3]) -> Vec<u8> {
    terms.iter().flat_map(|term| term.to_le_bytes()).collect()
}

fn day(shape: Shape, chance: &mut Chance) -> Vec<u8> {
    let mut file = write_terms([shape.gap, shape.lateness, shape.day_length]);
    let (commands, now) = (shape.commands, shape.start);
    let bound = Bound::new(&shape);
    let mut day = Day { chance, shape, bound, now, last: None, burst: 0 };
    for _ in 0..commands {
        let command = day.command();
        write_command(&command, &mut file).expect("a Vec takes all");
    }
    file
}

/// A random day; a few in a hundred are spoiled in one way or another.
fn random_day(chance: &mut Chance) -> Vec<u8> {
    let shape = Shape::random(chance);
    let mut file = day(shape, chance);
    match chance.below(200) {
        0 => file.truncate(chance.below(24) as usize),
        1..=3 => file.truncate(24),
        4..=11 => spoil_terms(&mut file, chance),
        12..=19 => cut_last_command(&mut file, chance),
        20..=27 => add_unknown_kind(&mut file, chance),
        _ => {}
    }
    file
}

/// Some of the terms out of bounds, so that every command is refused.
fn spoil_terms(file: &mut [u8], chance: &mut Chance) {
    let which = chance.between(1, 7);
    for place in (0..3).filter(|place| which >> place & 1 == 1) {
        let bad = match place {
            2 => 0,
            _ => chance.pick(&[TIME_BOUND, TIME_BOUND + 1, u64::MAX]),
        };
        file[place * 8..place * 8 + 8].copy_from_slice(&bad.to_le_bytes());
    }
}

fn cut_last_command(file: &mut Vec<u8>, chance: &mut Chance) {
    let mut last = Vec::new();
    let time = chance.below(1_000);
    let command = match chance.percent(50) {
        true => Command::Watermark(time),
        false => Command::Reading(Reading { card: 1, time, serial: 0, amount: 1 }),
    };
    write_command(&command, &mut last).expect("a Vec takes all");
    last.truncate(chance.between(1, last.len() as u64 - 1) as usize);
    file.extend(last);
}

fn add_unknown_kind(file: &mut Vec<u8>, chance: &mut Chance) {
    file.push(chance.between(2, 255) as u8);
    // What follows it does not count, be it a command or not.
    for _ in 0..chance.pick(&[0, 1, 8, 20, 42]) {
        file.push(chance.below(3) as u8);
    }
}

fn generate() -> Result<(), Box<dyn Error>> {
    let arguments: Vec<String> = env::args().skip(1).collect();
    let (seed, count, folder, commands) = match arguments.as_slice() {
        [seed, count, folder] => (seed, count, folder, None),
        [seed, count, folder, commands] => (seed, count, folder, Some(commands.parse::<u64>()?)),
        _ => return Err("usage: generate SEED COUNT DIR [COMMANDS]".into()),
    };
    let (seed, count) = (seed.parse::<u64>()?, count.parse::<u64>()?);
    fs::create_dir_all(folder)?;
    for index in 0..count {
        let mut chance = Chance(Chance(seed).next() ^ Chance(!index).next());
        let file = match commands {
            Some(commands) => day(Shape::steady(commands), &mut chance),
            None => random_day(&mut chance),
        };
        fs::write(Path::new(folder).join(format!("{index:05}.day")), file)?;
    }
    Ok(())
}

fn main() -> ExitCode {
    match generate() {
        Ok(()) => ExitCode::SUCCESS,
        Err(error) => {
            eprintln!("generate: {error}");
            ExitCode::FAILURE
        }
    }
}
