//! What the repository's files give names to.

use super::{Known, Module};
use crate::definitions::definitions;
use crate::functions::functions;
use crate::items::items;
use crate::running::Running;
use crate::source::{files, paths, Source};

/// The folders that a promise may name something in.
const FOLDERS: [&str; 4] = ["crates", "docs", "host/tests", "listings"];

/// The texts that are read for names, by folder and ending.
const TEXTS: [(&str, &str); 5] = [
    ("crates", ".rt"),
    ("crates", ".antt"),
    ("crates", "/stdout"),
    ("host/tests", ".rs"),
    ("host/tests", ".txt"),
];

/// The file with the examples and their answers.
const EXAMPLES: &str = "crates/examples/specs/Listings.antt";

impl Known {
    /// What the repository has.
    pub fn read() -> Known {
        let sources = TEXTS.iter().flat_map(|(folder, ending)| files(folder, ending));
        let sources: Vec<Source> = sources.collect();
        Known::of(FOLDERS.iter().flat_map(|folder| paths(folder)), &sources)
    }

    /// What there is where these files are, of which some are read.
    pub fn of(paths: impl IntoIterator<Item = String>, sources: &[Source]) -> Known {
        let mut known = Known { running: Running::of(sources), ..Known::default() };
        for path in paths {
            let folders = path.match_indices('/').map(|(at, _)| path[..at].to_string());
            known.paths.extend(folders);
            known.paths.insert(path);
        }
        sources.iter().for_each(|source| known.add(source));
        known
    }

    /// Adds the names that a text gives, by the place where it stands.
    fn add(&mut self, Source { file, text }: &Source) {
        match file.split('/').collect::<Vec<_>>()[..] {
            ["crates", of, "src", ref inside @ ..] => self.add_items(of, inside, text),
            ["crates", of, part @ ("specs" | "proofs"), .., last] => self.modules.push(Module {
                file: file.to_string(),
                of: of.to_string(),
                name: last.trim_end_matches(".antt").to_string(),
                is_specs: part == "specs",
                definitions: definitions(text),
            }),
            _ if file.ends_with(".rs") => {}
            _ => self.add_cases(file, text),
        }
        if file == EXAMPLES {
            self.answers.extend(answers(text));
        }
    }

    /// Adds what a file of a crate's source declares.
    fn add_items(&mut self, of: &str, inside: &[&str], text: &str) {
        let modules = inside.iter().map(|part| part.trim_end_matches(".rt"));
        let modules = modules.filter(|part| !["lib", "main"].contains(part));
        let within = [of].into_iter().chain(modules).collect::<Vec<_>>().join("::");
        self.items.extend(items(text).iter().map(|item| format!("{within}::{item}")));
        let exported = functions(text).into_iter().filter(|function| function.exported);
        self.exports.extend(exported.map(|function| function.name));
    }

    /// Adds what stands before the colons of stored lines.
    fn add_cases(&mut self, file: &str, text: &str) {
        let named = text.lines().filter_map(|line| line.split_once(':'));
        self.cases.extend(named.map(|(case, _)| (file.to_string(), case.to_string())));
    }
}

/// The answers of the examples, whose number and place end a `case`: as `5 at 7` and as `5`.
fn answers(text: &str) -> Vec<String> {
    let cases = text.lines().filter(|line| line.split_whitespace().any(|word| word == "case"));
    let answers = cases.filter_map(|line| {
        let mut numbers = line.split_whitespace().rev().map_while(|word| word.parse::<u32>().ok());
        let (place, number) = (numbers.next()?, numbers.next()?);
        Some([number.to_string(), format!("{number} at {place}")])
    });
    answers.flatten().collect()
}
