//! The words behind a command: files and options.

use super::commands::{Command, Value};
use super::keys::keys;
use std::collections::BTreeMap;
use std::ffi::OsString;

/// The files and options of a command.
#[derive(Default)]
pub struct Options {
    /// The files, in order; as many as the command takes.
    pub files: Vec<OsString>,
    /// The keys of each file for which they are given.
    keys: BTreeMap<usize, Vec<u8>>,
    /// Whether keys stand before all files.
    keys_first: bool,
    /// The most steps of a run, or of all turns together.
    pub steps: Option<u32>,
    /// The most steps of a turn.
    pub slice: Option<u32>,
    /// The clock.
    pub hz: Option<u32>,
}

impl Options {
    /// The files and options in these words, or what is wrong with them.
    pub fn parse(words: &[OsString], command: &Command) -> Result<Options, String> {
        let mut options = Options::default();
        let mut words = words.iter();
        while let Some(word) = words.next() {
            let Some(name) = word.to_str().filter(|word| word.starts_with('-') && *word != "-")
            else {
                options.files.push(word.clone());
                continue;
            };
            let known = command.options.iter().find(|(known, _)| *known == name);
            let (_, kind) =
                known.ok_or_else(|| format!("{} has no option {name}", command.name))?;
            let value = words.next().ok_or_else(|| format!("{name} lacks its value"))?;
            options.set(name, *kind, &value.to_string_lossy())?;
        }
        if !command.number.contains(&options.files.len()) {
            return Err(format!("{} takes {}", command.name, command.files));
        }
        if options.keys_first && options.files.len() > 1 {
            return Err("--keys must stand behind the FILE that it is for".to_string());
        }
        Ok(options)
    }

    /// The keys of a file, none if they aren't given.
    pub fn keys(&self, file: usize) -> &[u8] {
        self.keys.get(&file).map_or(&[], Vec::as_slice)
    }

    /// Sets an option; fails if its value is wrong or it was set before, keys for the same file.
    fn set(&mut self, name: &str, kind: Value, value: &str) -> Result<(), String> {
        let was_set = match name {
            "--keys" => self.set_keys(keys(value)?),
            "--steps" => self.steps.replace(number(name, kind, value)?).is_some(),
            "--slice" => self.slice.replace(number(name, kind, value)?).is_some(),
            _ => self.hz.replace(number(name, kind, value)?).is_some(),
        };
        if was_set {
            return Err(format!("{name} is given twice"));
        }
        Ok(())
    }

    /// Sets the keys of the last file so far, or of the first one if there is none yet; yields
    /// whether they were set before.
    fn set_keys(&mut self, keys: Vec<u8>) -> bool {
        self.keys_first |= self.files.is_empty();
        self.keys.insert(self.files.len().saturating_sub(1), keys).is_some()
    }
}

/// The number with these digits; if it is over 32 bits, the highest of 32 bits where a call judges
/// it, since both are refused alike.
fn number(name: &str, kind: Value, digits: &str) -> Result<u32, String> {
    if digits.is_empty() || !digits.bytes().all(|digit| digit.is_ascii_digit()) {
        return Err(format!("{name} {digits:?} is no number"));
    }
    match (digits.parse(), kind) {
        (Ok(number), _) => Ok(number),
        (Err(_), Value::Judged) => Ok(u32::MAX),
        (Err(_), _) => Err(format!("{name}: {digits} is over {}", u32::MAX)),
    }
}
