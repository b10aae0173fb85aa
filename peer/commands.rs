//! Commands as they are written to a file, for the programs that make days: generate.rs here and in bench/.

use std::io::{self, Write};

#[derive(Clone, Copy, PartialEq, Eq, PartialOrd, Ord)]
pub struct Reading {
    pub card: u32,
    pub time: u64,
    pub serial: u32,
    pub amount: u32,
}

pub enum Command {
    Reading(Reading),
    Watermark(u64),
}

pub fn write_command(command: &Command, file: &mut impl Write) -> io::Result<()> {
    match command {
        Command::Reading(reading) => {
            file.write_all(&[0])?;
            file.write_all(&reading.card.to_le_bytes())?;
            file.write_all(&reading.serial.to_le_bytes())?;
            file.write_all(&reading.time.to_le_bytes())?;
            file.write_all(&reading.amount.to_le_bytes())
        }
        Command::Watermark(watermark) => {
            file.write_all(&[1])?;
            file.write_all(&watermark.to_le_bytes())
        }
    }
}
