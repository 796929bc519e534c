//! How often each refusal, each verdict and each answer came up.

use crate::reference::{Followed, Form, MAX_STATIONS, MAX_WORDS};
use std::collections::BTreeMap;
use std::fmt;

/// All that a script can bring about, as `kind`, `slip_kind` and `form_kind` name it.
const EXPECTED: [&str; 70] = [
    "job refused 1",
    "job refused 4",
    "job refused 6",
    "network refused 1",
    "network refused 4",
    "network refused 7",
    "network refused 8",
    "routes refused 9",
    "made, routes by hops",
    "made, routes by slowness",
    "made, routes as written",
    "over a roll",
    "over a bit sheet",
    "over a bit sheet of no words",
    "over a bit sheet of 1024 words",
    "place up to the end of a bit sheet",
    "lawful",
    "broken A",
    "broken B",
    "broken C",
    "broken D",
    "broken E",
    "broken F",
    "broken G",
    "broken H",
    "broken I",
    "place finish",
    "place refused 11",
    "place refused 12",
    "place refused 13",
    "place refused 14",
    "place refused 16",
    "place refused 17",
    "place refused 18, a machine",
    "place refused 18, a link",
    "place not allowed",
    "place not allowed once handed in",
    "try finish",
    "try refused 11",
    "try refused 12",
    "try refused 13",
    "try refused 14",
    "try refused 16",
    "try refused 17",
    "try refused 18, a machine",
    "try refused 18, a link",
    "try not allowed",
    "try not allowed once handed in",
    "keep kept",
    "keep not allowed",
    "keep not allowed once handed in",
    "strike task",
    "strike not allowed",
    "strike not allowed once handed in",
    "back task",
    "back refused 15",
    "back not allowed",
    "back not allowed once handed in",
    "fill length",
    "fill refused 19",
    "fill not allowed",
    "fill not allowed once handed in",
    "slip lawful, no task placed",
    "slip lawful, some tasks placed",
    "slip lawful, all tasks placed",
    "hand in not allowed",
    "hand in not allowed once handed in",
    "shown task",
    "shown edge",
    "line not understood",
];

/// What no script can bring about, by the kinds that hold these words, and why.
const BEYOND_SCRIPTS: [(&str, &str); 3] = [
    (
        "refused 20",
        "one sheet, one plan and one timetable serve the whole script",
    ),
    ("strike refused 15", "a sheet on trial has a step"),
    (
        "slip broken",
        "every plan that a list of calls leads to is lawful",
    ),
];

/// What a line of output says, without its numbers other than a refusal's.
fn kind(line: &str) -> String {
    let words: Vec<&str> = line
        .split([' ', ':'])
        .filter(|word| !word.is_empty())
        .collect();
    let name = match words[..] {
        ["hand", "in", ..] => "hand in",
        [first, ..] => first,
        [] => "",
    };
    match words[..] {
        ["lawful", ..] => "lawful".to_owned(),
        ["broken", rule, ..] => format!("broken {rule}"),
        ["job", "of", .., "routes", how, origin] => format!("made, routes {how} {origin}"),
        ["task" | "edge", ..] => format!("shown {name}"),
        [.., "refused", "18", resource] => {
            let is_link = resource
                .parse()
                .is_ok_and(|resource: usize| resource >= MAX_STATIONS);
            let what = if is_link { "link" } else { "machine" };
            format!("{name} refused 18, a {what}")
        }
        [.., "refused", number, _] => format!("{name} refused {number}"),
        [.., "not", what] => format!("{name} not {what}"),
        ["keep", .., what] | [_, .., what, _] => format!("{name} {what}"),
        _ => line.to_owned(),
    }
}

/// What the slip of a sheet says.
fn slip_kind(line: &str) -> String {
    let words: Vec<&str> = line.split(' ').collect();
    match words[..] {
        ["lawful", "placed", "0", ..] => "slip lawful, no task placed".to_owned(),
        ["lawful", "placed", placed, "of", tasks, ..] if placed == tasks => {
            "slip lawful, all tasks placed".to_owned()
        }
        ["lawful", ..] => "slip lawful, some tasks placed".to_owned(),
        _ => format!("slip {}", kind(line)),
    }
}

/// The timetable that is drawn over.
fn form_kind(form: Form) -> &'static str {
    match form {
        Form::Roll => "over a roll",
        Form::Bits { words: 0 } => "over a bit sheet of no words",
        Form::Bits { words: MAX_WORDS } => "over a bit sheet of 1024 words",
        Form::Bits { .. } => "over a bit sheet",
    }
}

#[derive(Default)]
pub struct Tally {
    scripts: usize,
    kinds: BTreeMap<String, usize>,
}

impl Tally {
    pub fn count(&mut self, followed: &Followed) {
        self.scripts += 1;
        if let Some(form) = followed.form {
            self.add(form_kind(form).to_owned());
            self.count_ends(&followed.text, form);
        }
        let slip_place = followed.before_slip.unwrap_or(usize::MAX);
        for (place, line) in followed.text.lines().enumerate() {
            let kind = kind(line);
            self.add(if place == slip_place {
                slip_kind(line)
            } else if place > slip_place && kind.ends_with("not allowed") {
                kind + " once handed in"
            } else {
                kind
            });
        }
    }

    /// Counts the places whose task finishes where the timetable ends.
    fn count_ends(&mut self, text: &str, form: Form) {
        let end = format!(": finish {}", form.horizon());
        let ends_there = |line: &&str| line.starts_with("place") && line.ends_with(&end);
        for _ in text.lines().filter(ends_there) {
            self.add("place up to the end of a bit sheet".to_owned());
        }
    }

    fn add(&mut self, kind: String) {
        *self.kinds.entry(kind).or_default() += 1;
    }

    /// What a script can bring about and none did.
    pub fn missing(&self) -> Vec<&'static str> {
        let came_up = |kind: &&str| self.kinds.contains_key(*kind);
        EXPECTED.into_iter().filter(|kind| !came_up(kind)).collect()
    }

    /// What no script can bring about and one did.
    pub fn unforeseen(&self) -> Vec<&'static str> {
        let words = BEYOND_SCRIPTS.into_iter().map(|(words, _)| words);
        words.filter(|words| self.count_with(words) > 0).collect()
    }

    /// How often the kinds came up that hold these words.
    fn count_with(&self, words: &str) -> usize {
        let kinds = self.kinds.iter().filter(|(kind, _)| kind.contains(words));
        kinds.map(|(_, count)| count).sum()
    }
}

impl fmt::Display for Tally {
    fn fmt(&self, f: &mut fmt::Formatter<'_>) -> fmt::Result {
        writeln!(f, "{} scripts, and what both printed:", self.scripts)?;
        for (kind, count) in &self.kinds {
            writeln!(f, "{count:>10}  {kind}")?;
        }
        writeln!(f, "what no script can bring about:")?;
        for (words, why) in BEYOND_SCRIPTS {
            writeln!(f, "{:>10}  {words}: {why}", self.count_with(words))?;
        }
        Ok(())
    }
}
