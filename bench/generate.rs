//! Writes long days (command files, docs/RULES.md section 11) for measuring.
//!
//!     rustc -O --edition 2024 generate.rs
//!     generate SHAPE COMMANDS FILE [KIND COUNT]
//!
//! SHAPE is `small`, within 63 live visits and 255 kept readings, or `large`, within 1,023 and
//! 4,095 and most of the time near to them. So a store refuses nothing with 7, for large with
//! `--full`. With KIND, one of `KINDS`, COUNT commands of that kind follow the COMMANDS of the day.
//! A day depends on its arguments alone. What it has is told on standard error.
//!
//! A day of any length is of the same shape: time moves on by one with each command, and only the
//! day length grows with COMMANDS, so that there are as many days, and lines of the ledger, in each.
//! A command costs the logarithm of what a store holds, and goes to the file at once.

#[path = "../peer/chance.rs"]
mod chance;
#[path = "../peer/commands.rs"]
mod commands;

use chance::Chance;
use commands::{Command, Reading, write_command};
use std::cmp::Reverse;
use std::collections::{BTreeMap, BTreeSet, BinaryHeap, HashSet, VecDeque};
use std::fs::File;
use std::io::{BufWriter, Write};
use std::{env, error::Error, process::ExitCode};

// ---- Shapes -----------------------------------------------------------------------------------

/// What a day is like. Times are in commands.
struct Shape {
    gap: u64,
    lateness: u64,
    /// Live visits and kept readings with which no more readings come.
    most_visits: usize,
    most_readings: usize,
    /// Cards times days is the most lines there can be.
    cards: u32,
    days: u64,
    /// How many cards are on a visit at a time. The gap is some five times as long, so that few
    /// visits fall apart.
    visitors: usize,
    /// From one watermark to the next.
    pauses: (u64, u64),
    /// How far a reading in time is behind the present, at most; the watermark is as far behind.
    jitter: u64,
}

impl Shape {
    /// A visit has from 1 to so many readings.
    const VISIT: u64 = 11;
    /// Of a hundred readings, those that come late, and those that come again.
    const LATE: u64 = 6;
    const AGAIN: u64 = 4;
    /// Of a hundred watermarks, those that are the one that stands, and those that are smaller.
    const STILL: u64 = 5;
    const BACK: u64 = 1;

    const SMALL: Shape = Shape {
        gap: 45,
        lateness: 210,
        most_visits: 63,
        most_readings: 255,
        cards: 40,
        days: 75,
        visitors: 8,
        pauses: (6, 14),
        jitter: 10,
    };

    const LARGE: Shape = Shape {
        gap: 800,
        lateness: 4_400,
        most_visits: 1_023,
        most_readings: 4_095,
        cards: 1_000,
        days: 3,
        visitors: 170,
        pauses: (10, 22),
        jitter: 20,
    };
}

// ---- What a store holds -----------------------------------------------------------------------

/// The live visits and kept readings after the commands so far, without amounts.
struct State {
    gap: u64,
    lateness: u64,
    day_length: u64,
    watermark: u64,
    /// By card and from: where a visit ends.
    visits: BTreeMap<(u32, u64), u64>,
    /// The same visits as (to, card, from), and the readings as (time, card, serial): the first
    /// are the first to be forgotten.
    ends: BTreeSet<(u64, u32, u64)>,
    seen: BTreeSet<(u64, u32, u32)>,
    /// Cards and days of the visits that are forgotten: they stay closed.
    lines: HashSet<(u32, u64)>,
}

impl State {
    fn new(shape: &Shape, day_length: u64) -> State {
        State {
            gap: shape.gap,
            lateness: shape.lateness,
            day_length,
            watermark: 0,
            visits: BTreeMap::new(),
            ends: BTreeSet::new(),
            seen: BTreeSet::new(),
            lines: HashSet::new(),
        }
    }

    /// Why the command is refused, or none if it is done.
    fn apply(&mut self, command: &Command) -> Option<Refusal> {
        match command {
            Command::Reading(reading) => self.take(reading),
            Command::Watermark(watermark) => self.advance(*watermark),
        }
    }

    fn take(&mut self, reading: &Reading) -> Option<Refusal> {
        let Reading { card, time, serial, .. } = *reading;
        if time + self.lateness < self.watermark {
            return Some(Refusal::TooLate);
        }
        if !self.seen.insert((time, card, serial)) {
            return Some(Refusal::Duplicate);
        }
        let (mut from, mut to) = (time, time);
        for (near_from, near_to) in self.near(card, time) {
            self.visits.remove(&(card, near_from));
            self.ends.remove(&(near_to, card, near_from));
            (from, to) = (from.min(near_from), to.max(near_to));
        }
        self.visits.insert((card, from), to);
        self.ends.insert((to, card, from));
        None
    }

    /// From and to of the visits that a reading would be joined to: two at most.
    fn near(&self, card: u32, time: u64) -> Vec<(u64, u64)> {
        let begun = self.visits.range((card, 0)..=(card, time + self.gap)).rev();
        let spans = begun.map(|(&(_, from), &to)| (from, to));
        spans.take_while(|(_, to)| time <= to + self.gap).collect()
    }

    fn advance(&mut self, watermark: u64) -> Option<Refusal> {
        if watermark < self.watermark {
            return Some(Refusal::Backwards);
        }
        self.watermark = watermark;
        let earliest = watermark.saturating_sub(self.lateness);
        while self.seen.first().is_some_and(|&(time, ..)| time < earliest) {
            self.seen.pop_first();
        }
        while let Some(&(to, card, from)) = self.ends.first()
            && to + self.gap < earliest
        {
            self.ends.pop_first();
            self.visits.remove(&(card, from));
            self.lines.insert((card, from / self.day_length));
        }
        None
    }

    /// The number of lines of the ledger. It looks at all live visits: for the end of a day only.
    fn count_lines(&self) -> usize {
        let closed = self.ends.iter().take_while(|(to, ..)| self.is_closed(*to));
        let mut lines = self.lines.clone();
        lines.extend(closed.map(|&(_, card, from)| (card, from / self.day_length)));
        lines.len()
    }

    fn is_closed(&self, to: u64) -> bool {
        to + self.gap < self.watermark
    }
}

enum Refusal {
    TooLate,
    Duplicate,
    Backwards,
}

// ---- Days -------------------------------------------------------------------------------------

struct Visitor {
    card: u32,
    /// How many readings are still to come.
    readings: u64,
}

struct Day {
    chance: Chance,
    shape: Shape,
    state: State,
    now: u64,
    next_watermark: u64,
    visitors: Vec<Visitor>,
    /// The other cards: who is away longest comes next.
    away: VecDeque<u32>,
    /// Readings that come late or again, by the time when they come.
    later: BinaryHeap<Reverse<(u64, Reading)>>,
}

impl Day {
    fn new(shape: Shape, commands: u64) -> Day {
        let state = State::new(&shape, commands / shape.days + 1);
        let mut day = Day {
            chance: Chance(0),
            state,
            now: 0,
            next_watermark: shape.pauses.1,
            visitors: Vec::new(),
            away: (1..=shape.cards).collect(),
            later: BinaryHeap::new(),
            shape,
        };
        // The order of cards must not be that of their visits.
        for index in (1..day.away.len()).rev() {
            let other = day.chance.index(index + 1);
            day.away.swap(index, other);
        }
        for _ in 0..day.shape.visitors {
            let visitor = day.visitor();
            day.visitors.push(visitor);
        }
        day
    }

    fn visitor(&mut self) -> Visitor {
        let card = self.away.pop_front().expect("more cards than visitors");
        Visitor { card, readings: self.chance.between(1, Shape::VISIT) }
    }

    fn command(&mut self) -> Command {
        self.now += 1;
        if self.now >= self.next_watermark || self.is_full() {
            return Command::Watermark(self.watermark());
        }
        if let Some(Reverse((due, reading))) = self.later.peek().copied()
            && due <= self.now
        {
            self.later.pop();
            return Command::Reading(reading);
        }
        Command::Reading(self.reading())
    }

    fn is_full(&self) -> bool {
        self.state.visits.len() >= self.shape.most_visits
            || self.state.seen.len() >= self.shape.most_readings
    }

    fn watermark(&mut self) -> u64 {
        let (low, high) = self.shape.pauses;
        self.next_watermark = self.now + self.chance.between(low, high);
        let stands = self.state.watermark;
        if self.is_full() {
            return self.now.saturating_sub(self.shape.jitter);
        }
        match self.chance.below(100) {
            0..Shape::STILL => stands,
            percent if percent < Shape::STILL + Shape::BACK => stands.saturating_sub(1),
            _ => self.now.saturating_sub(self.shape.jitter),
        }
    }

    /// One that comes now; those made before it that come late wait.
    fn reading(&mut self) -> Reading {
        loop {
            let reading = self.fresh();
            if self.chance.percent(Shape::AGAIN) {
                self.come_again(reading);
            }
            if !self.chance.percent(Shape::LATE) {
                return reading;
            }
            self.come_later(reading);
        }
    }

    fn fresh(&mut self) -> Reading {
        let index = self.chance.index(self.visitors.len());
        let time = self.now.saturating_sub(self.chance.below(self.shape.jitter));
        let card = self.visitors[index].card;
        self.visitors[index].readings -= 1;
        if self.visitors[index].readings == 0 {
            self.away.push_back(card);
            self.visitors[index] = self.visitor();
        }
        let (serial, amount) = (self.chance.below(4) as u32, self.amount());
        Reading { card, time, serial, amount }
    }

    fn amount(&mut self) -> u32 {
        self.chance.between(50, 400) as u32
    }

    /// Every second time with an amount of its own.
    fn come_again(&mut self, reading: Reading) {
        let amount = match self.chance.percent(50) {
            true => reading.amount,
            false => self.amount(),
        };
        self.come_later(Reading { amount, ..reading });
    }

    /// Some come later than they may.
    fn come_later(&mut self, reading: Reading) {
        let delay = self.chance.between(1, self.shape.lateness * 9 / 8);
        self.later.push(Reverse((self.now + delay, reading)));
    }
}

// ---- Commands of one kind ---------------------------------------------------------------------

const KINDS: &str = "begins, goes-on, lengthens, duplicate, late, closes, still";

/// No reading of a day has it, so that no reading of a kind is taken for a duplicate.
const SERIAL: u32 = 9;

impl Day {
    fn of_kind(&mut self, kind: &str) -> Result<Command, String> {
        let reading = match kind {
            "begins" => self.begins(),
            "goes-on" => self.goes_on(),
            "lengthens" => self.lengthens(),
            "duplicate" => self.duplicate(),
            "late" => self.late(),
            "closes" => return self.closes().ok_or("no visit is open any more".to_string()),
            "still" => return Ok(Command::Watermark(self.state.watermark)),
            _ => return Err(format!("no kind {kind}; there are: {KINDS}")),
        };
        match reading {
            Some(reading) if !self.is_full() => Ok(Command::Reading(reading)),
            _ => Err(format!("no more commands of the kind {kind} fit")),
        }
    }

    fn begins(&mut self) -> Option<Reading> {
        let fits = |card: &u32| self.state.near(*card, self.now).is_empty();
        let cards: Vec<u32> = self.away.iter().copied().filter(fits).collect();
        let card = self.pick(&cards)?;
        Some(self.extra(card, self.now))
    }

    /// It is of a visit that is open before and after.
    fn goes_on(&mut self) -> Option<Reading> {
        let open = self.state.ends.iter().filter(|(to, ..)| !self.state.is_closed(*to));
        let open: Vec<_> = open.copied().collect();
        let (to, card, _) = self.pick(&open)?;
        Some(self.extra(card, to + 1))
    }

    /// It is of a visit that is closed before and after, and joins it to no other.
    fn lengthens(&mut self) -> Option<Reading> {
        let State { lateness, watermark, .. } = self.state;
        let fits = |&(to, card, _): &(u64, u32, u64)| {
            self.state.is_closed(to + 1)
                && to + 1 + lateness >= watermark
                && self.state.near(card, to + 1).len() == 1
        };
        let closed: Vec<_> = self.state.ends.iter().copied().filter(fits).collect();
        let (to, card, _) = self.pick(&closed)?;
        Some(self.extra(card, to + 1))
    }

    fn duplicate(&mut self) -> Option<Reading> {
        let seen: Vec<_> = self.state.seen.iter().copied().collect();
        let (time, card, serial) = self.pick(&seen)?;
        Some(Reading { serial, ..self.extra(card, time) })
    }

    fn late(&mut self) -> Option<Reading> {
        let time = self.state.watermark.checked_sub(self.state.lateness + 1)?;
        let card = self.chance.between(1, u64::from(self.shape.cards)) as u32;
        Some(self.extra(card, time))
    }

    /// The next watermark that closes a visit.
    fn closes(&self) -> Option<Command> {
        let first = self.state.watermark.saturating_sub(self.state.gap);
        let (to, ..) = self.state.ends.range((first, 0, 0)..).next()?;
        Some(Command::Watermark(to + self.state.gap + 1))
    }

    fn extra(&mut self, card: u32, time: u64) -> Reading {
        Reading { card, time, serial: SERIAL, amount: self.amount() }
    }

    fn pick<T: Copy>(&mut self, choices: &[T]) -> Option<T> {
        (!choices.is_empty()).then(|| choices[self.chance.index(choices.len())])
    }
}

// ---- What a day has ---------------------------------------------------------------------------

#[derive(Default)]
struct Tally {
    commands: u64,
    watermarks: u64,
    too_late: u64,
    duplicates: u64,
    backwards: u64,
    /// Of the live visits and of the kept readings: the most, and the total over all commands.
    most: [usize; 2],
    total: [u64; 2],
}

impl Tally {
    fn count(&mut self, command: &Command, refusal: Option<Refusal>, state: &State) {
        self.commands += 1;
        self.watermarks += u64::from(matches!(command, Command::Watermark(_)));
        match refusal {
            Some(Refusal::TooLate) => self.too_late += 1,
            Some(Refusal::Duplicate) => self.duplicates += 1,
            Some(Refusal::Backwards) => self.backwards += 1,
            None => {}
        }
        for (place, held) in [state.visits.len(), state.seen.len()].into_iter().enumerate() {
            self.most[place] = self.most[place].max(held);
            self.total[place] += held as u64;
        }
    }

    fn tell(&self, state: &State) {
        let readings = self.commands - self.watermarks;
        let mean = self.total.map(|total| total / self.commands.max(1));
        eprintln!(
            "{} commands: {readings} readings ({} too late, {} duplicates), {} watermarks ({} back); \
             live visits {} on average, {} at most; kept readings {}, {}; {} lines",
            self.commands,
            self.too_late,
            self.duplicates,
            self.watermarks,
            self.backwards,
            mean[0],
            self.most[0],
            mean[1],
            self.most[1],
            state.count_lines(),
        );
    }
}

// ---- Files ------------------------------------------------------------------------------------

struct Arguments {
    shape: Shape,
    commands: u64,
    path: String,
    kind: String,
    count: u64,
}

fn read_arguments() -> Result<Arguments, Box<dyn Error>> {
    let given: Vec<String> = env::args().skip(1).collect();
    let (shape, commands, path, kind, count) = match given.as_slice() {
        [shape, commands, path] => (shape, commands, path, "", "0"),
        [shape, commands, path, kind, count] => (shape, commands, path, &**kind, &**count),
        _ => return Err("usage: generate small|large COMMANDS FILE [KIND COUNT]".into()),
    };
    let shape = match shape.as_str() {
        "small" => Shape::SMALL,
        "large" => Shape::LARGE,
        _ => return Err(format!("no shape {shape}; there are: small, large").into()),
    };
    let (commands, count) = (commands.parse()?, count.parse()?);
    Ok(Arguments { shape, commands, path: path.clone(), kind: kind.to_string(), count })
}

fn generate() -> Result<(), Box<dyn Error>> {
    let Arguments { shape, commands, path, kind, count } = read_arguments()?;
    let mut day = Day::new(shape, commands);
    let mut file = BufWriter::with_capacity(1 << 16, File::create(path)?);
    for term in [day.state.gap, day.state.lateness, day.state.day_length] {
        file.write_all(&term.to_le_bytes())?;
    }
    let mut tally = Tally::default();
    for number in 0..commands + count {
        let command = match number < commands {
            true => day.command(),
            false => day.of_kind(&kind)?,
        };
        let refusal = day.state.apply(&command);
        tally.count(&command, refusal, &day.state);
        write_command(&command, &mut file)?;
    }
    file.flush()?;
    tally.tell(&day.state);
    Ok(())
}

fn main() -> ExitCode {
    match generate() {
        Ok(()) => ExitCode::SUCCESS,
        Err(error) => {
            eprintln!("generate: {error}");
            ExitCode::FAILURE
        }
    }
}
