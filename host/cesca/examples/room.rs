//! A reading room: up to eight listings on one screen, which is shown again each time that turns
//! have gone round: `cargo run --release --example room -- ../listings/*.bin`.
//!
//! `--keys 1,2,3` behind a file are its keys. `--slice 50` sets the steps of a turn, and
//! `--screens 20` ends it after so many screens. Listings that are refused, and those for which no
//! seat is left, are left out.

use cesca::{Listing, Refusal, Room, Seat, MOST_SLICE};
use std::env;
use std::error::Error;
use std::fmt::Display;
use std::fs;
use std::io::{self, ErrorKind, IsTerminal, Write};
use std::str::FromStr;
use std::thread::sleep;
use std::time::Duration;

/// The words that a seat's roll has room for.
const ROLL: usize = 10_000;

/// The characters of a roll that are shown, the last ones.
const SHOWN: usize = 24;

/// How long a screen stays.
const PAUSE: Duration = Duration::from_millis(100);

/// Clears a terminal and goes to its first line.
const CLEAR: &str = "\x1b[2J\x1b[H";

/// What is asked for.
struct Options {
    slice: u32,
    screens: u64,
    /// The files, each with its keys.
    files: Vec<(String, Vec<u8>)>,
}

/// What is shown beside what the room has.
#[derive(Default)]
struct Labels {
    /// The name and the need of each seat's listing.
    seats: Vec<(String, u8)>,
    /// What is told of each file that is left out.
    left_out: Vec<String>,
}

fn main() -> Result<(), Box<dyn Error>> {
    let options = Options::parse(env::args().skip(1))?;
    let (room, labels) = seated(&options.files)?;
    match screens(&options, room, &labels) {
        // Nobody looks any longer.
        Err(error) if error.kind() == ErrorKind::BrokenPipe => Ok(()),
        shown => Ok(shown?),
    }
}

impl Options {
    /// The options and files in these words, or what is wrong with them.
    fn parse(mut words: impl Iterator<Item = String>) -> Result<Options, String> {
        let mut options = Options { slice: 100, screens: u64::MAX, files: Vec::new() };
        while let Some(word) = words.next() {
            if word.starts_with("--") {
                let value = words.next().ok_or_else(|| format!("{word} lacks its value"))?;
                options.set(&word, &value)?;
            } else {
                options.files.push((word, Vec::new()));
            }
        }
        if options.files.is_empty() {
            return Err("name listings' files".to_string());
        }
        Ok(options)
    }

    /// Sets an option, keys for the file before it.
    fn set(&mut self, name: &str, value: &str) -> Result<(), String> {
        match name {
            "--keys" => {
                let (_, keys) = self.files.last_mut().ok_or("--keys must stand behind its file")?;
                *keys = value.split(',').map(|key| parsed(name, key)).collect::<Result<_, _>>()?;
            }
            "--slice" => self.slice = parsed(name, value)?,
            "--screens" => self.screens = parsed(name, value)?,
            _ => return Err(format!("there is no option {name}")),
        }
        if !(1..=MOST_SLICE).contains(&self.slice) {
            return Err(format!("--slice: {} is not 1 to {MOST_SLICE}", self.slice));
        }
        Ok(())
    }
}

/// The number that is given for an option.
fn parsed<T: FromStr<Err: Display>>(option: &str, value: &str) -> Result<T, String> {
    value.parse().map_err(|error| format!("{option} {value:?}: {error}"))
}

/// A room with the admitted listings of these files, as many as it has seats for; of the others it
/// is told why they are refused.
fn seated(files: &[(String, Vec<u8>)]) -> Result<(Room, Labels), String> {
    let (mut room, mut labels) = (Room::new(), Labels::default());
    for (file, keys) in files {
        let bytes = fs::read(file).map_err(|error| format!("{file}: {error}"))?;
        let name = file.rsplit('/').next().unwrap_or(file);
        match add(&mut room, &bytes, keys) {
            Ok(need) => labels.seats.push((name.to_string(), need)),
            Err(refusal) => labels.left_out.push(format!("{name}: refused {refusal}")),
        }
    }
    Ok((room, labels))
}

/// Adds a seat for the listing in a file of these bytes; yields the listing's need.
fn add(room: &mut Room, bytes: &[u8], keys: &[u8]) -> Result<u8, Refusal> {
    let admitted = Listing::from_bytes(bytes)?.admit()?;
    room.add(&admitted, keys, ROLL)?;
    Ok(admitted.need())
}

/// Shows what is left out, and then screen after screen: the start, and what each round leaves.
fn screens(options: &Options, mut room: Room, labels: &Labels) -> io::Result<()> {
    show_left_out(&mut io::stdout(), labels)?;
    if room.is_empty() {
        return Ok(());
    }
    for screen in 0..options.screens {
        if screen > 0 && round(&mut room, options.slice) == 0 {
            break;
        }
        show(&room, labels)?;
    }
    Ok(())
}

/// Makes as many turns as there are seats, or as many as can be made; yields their number.
fn round(room: &mut Room, slice: u32) -> usize {
    let seats = room.len();
    let turn = |_: &usize| room.turn(slice).expect("seats, and a slice that is right").is_some();
    (0..seats).take_while(turn).count()
}

/// Shows a line for each seat. A terminal is cleared first, so what is left out is told there
/// again, and the screen stays a little.
fn show(room: &Room, labels: &Labels) -> io::Result<()> {
    let mut out = io::stdout().lock();
    let terminal = out.is_terminal();
    if terminal {
        write!(out, "{CLEAR}")?;
    }
    let width = labels.seats.iter().map(|(name, _)| name.chars().count()).max().unwrap_or(0).max(4);
    writeln!(out, "seat  {:width$}  need  OUT  {:<9}  roll", "name", "state")?;
    for (seat, (name, need)) in room.seats().zip(&labels.seats) {
        let (number, display) = (seat.number(), seat.state().out);
        let state = seat.stop().map_or("runs".to_string(), |stop| stop.to_string());
        let roll = text(&seat);
        let line =
            format!("{number:>4}  {name:width$}  {need:>4}  {display:>3}  {state:<9}  {roll}");
        writeln!(out, "{}", line.trim_end())?;
    }
    writeln!(out)?;
    if terminal {
        show_left_out(&mut out, labels)?;
        out.flush()?;
        sleep(PAUSE);
    }
    Ok(())
}

/// Shows why files are left out.
fn show_left_out(out: &mut impl Write, labels: &Labels) -> io::Result<()> {
    labels.left_out.iter().try_for_each(|line| writeln!(out, "{line}"))
}

/// The last characters on a seat's roll, a dot for what has none; commands are left out.
fn text(seat: &Seat<'_>) -> String {
    let data = seat.roll().iter().filter_map(|word| u8::try_from(*word).ok());
    let data: Vec<u8> = data.collect();
    let last = &data[data.len().saturating_sub(SHOWN)..];
    let plain = |byte: &u8| if matches!(byte, b' '..=b'~') { char::from(*byte) } else { '.' };
    last.iter().map(plain).collect()
}
