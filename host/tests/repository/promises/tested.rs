//! The columns of tests and of examples.

use crate::known::Known;

/// A test, and a case of it that is named behind it.
type Test<'a> = (&'a str, Option<&'a str>);

/// The tests of a cell: names with commas between them, each with its cases in quotes behind it.
pub fn tests(cell: &str) -> Vec<Test<'_>> {
    let mut tests: Vec<Test<'_>> = Vec::new();
    for (place, part) in cell.split('"').enumerate() {
        if place % 2 == 0 {
            let names = part.split(',').map(|name| name.trim().trim_matches('`'));
            tests.extend(names.filter(|name| !name.is_empty()).map(|name| (name, None)));
            continue;
        }
        let last = tests.pop_if(|(_, case)| case.is_none()).or(tests.last().copied());
        tests.push(last.map_or((part, None), |(name, _)| (name, Some(part))));
    }
    tests
}

/// What is wrong with a test, if something is: a file or folder of the host's tests that is run, or
/// a program with stored lines.
pub fn wrong((name, case): Test<'_>, known: &Known) -> Option<String> {
    let below = format!("host/tests/{}", name.trim_start_matches("host/tests/"));
    let printed = format!("crates/{name}/stdout");
    if known.has_path(&below) && !known.running().has_test(&below) {
        return Some(format!("{name} has no test that is run"));
    }
    if !known.has_path(&below) && !known.has_path(&printed) {
        return Some(format!("{name} is no test"));
    }
    let case = case?;
    let stored = [below.replace(".rs", ".txt"), printed];
    let has = stored.iter().any(|file| known.has_case(file, case));
    (!has).then(|| format!("{name} has no case \"{case}\""))
}

/// What is wrong with a cell of examples: `all`, or answers with commas between them.
pub fn wrong_examples(cell: &str, known: &Known) -> Vec<String> {
    let answers = cell.split(',').map(str::trim).filter(|answer| !["", "all"].contains(answer));
    let unknown = answers.filter(|answer| !known.has_answer(answer));
    unknown.map(|answer| format!("no example is answered {answer}")).collect()
}
