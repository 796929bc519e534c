//! The lines of a script: docs/SCRIPT.md.

use super::calls::Call;
use super::job::{Edge, MAX_EDGES, MAX_TASKS};
use super::network::{Link, Station, MAX_STATIONS};
use super::plan::Placement;
use super::routes::{Hop, MAX_HOPS};
use super::timetable::{Form, MAX_BOOKINGS, MAX_WORDS};

#[derive(Clone, Copy, Debug, PartialEq, Eq)]
pub enum RouteKind {
    Written,
    Hops,
    Slowness,
}

/// A line that describes the job, the network, the routes or the timetable.
pub enum SettingLine {
    Task(u32),
    Edge(Edge),
    Station(Station),
    Link(Link),
    Routes(RouteKind),
    Route {
        from: usize,
        to: usize,
        hops: Vec<Hop>,
    },
    Bookings(usize),
    Timetable(Form),
}

/// A line that comes after the setting.
pub enum WorkLine {
    Answer,
    Row { task: usize, row: Placement },
    Starts { edge: usize, starts: Vec<u32> },
    Mark,
    Call(Call),
    Show,
}

pub enum Statement {
    Setting(SettingLine),
    Work(WorkLine),
}

/// The words of a line, without its comment.
pub fn words(line: &[u8]) -> impl Iterator<Item = &[u8]> {
    let said = line.split(|&byte| byte == b'#').next().unwrap_or(line);
    said.split(|byte| b" \t\r".contains(byte))
        .filter(|word| !word.is_empty())
}

/// What a line says, if it has a word.
pub fn read(line: &[u8]) -> Option<Result<Statement, NotUnderstood>> {
    let mut words = words(line);
    let name = words.next()?;
    Some(read_words(name, &words.collect::<Vec<_>>()))
}

#[derive(Debug)]
pub struct NotUnderstood;

fn number(word: &[u8]) -> Result<u32, NotUnderstood> {
    // `parse` would take a sign too.
    if !word.iter().all(u8::is_ascii_digit) {
        return Err(NotUnderstood);
    }
    let digits = std::str::from_utf8(word).map_err(|_| NotUnderstood)?;
    digits.parse().map_err(|_| NotUnderstood)
}

fn number_below(word: &[u8], limit: usize) -> Result<usize, NotUnderstood> {
    let number = number(word)? as usize;
    if number < limit {
        Ok(number)
    } else {
        Err(NotUnderstood)
    }
}

fn numbers(words: &[&[u8]]) -> Result<Vec<u32>, NotUnderstood> {
    words.iter().map(|word| number(word)).collect()
}

fn hops(words: &[&[u8]]) -> Result<Vec<Hop>, NotUnderstood> {
    let hop = |pair: &[u32]| match *pair {
        [link, station] => Ok(Hop {
            link: link as usize,
            station: station as usize,
        }),
        _ => Err(NotUnderstood),
    };
    numbers(words)?.chunks(2).map(hop).collect()
}

fn read_words(name: &[u8], words: &[&[u8]]) -> Result<Statement, NotUnderstood> {
    match read_setting(name, words) {
        Some(line) => line.map(Statement::Setting),
        None => read_work(name, words).map(Statement::Work),
    }
}

/// A line of the setting, if its first word is that of one.
fn read_setting(name: &[u8], words: &[&[u8]]) -> Option<Result<SettingLine, NotUnderstood>> {
    let is_setting: &[&[u8]] = &[
        b"task",
        b"edge",
        b"machine",
        b"switch",
        b"link",
        b"routes",
        b"route",
        b"bookings",
        b"timetable",
    ];
    is_setting
        .contains(&name)
        .then(|| read_setting_words(name, words))
}

fn read_setting_words(name: &[u8], words: &[&[u8]]) -> Result<SettingLine, NotUnderstood> {
    Ok(match (name, words) {
        (b"task", [work]) => SettingLine::Task(number(work)?),
        (b"edge", [from, to, volume]) => SettingLine::Edge(Edge {
            from: number(from)? as usize,
            to: number(to)? as usize,
            volume: number(volume)?,
        }),
        (b"machine", [speed]) => SettingLine::Station(Station::Machine {
            speed: number(speed)?,
        }),
        (b"switch", []) => SettingLine::Station(Station::Switch),
        (b"link", [speed, stations @ ..]) => SettingLine::Link(Link {
            speed: number(speed)?,
            stations: numbers(stations)?
                .iter()
                .map(|&station| station as usize)
                .collect(),
        }),
        (b"routes", [b"written"]) => SettingLine::Routes(RouteKind::Written),
        (b"routes", [b"hops"]) => SettingLine::Routes(RouteKind::Hops),
        (b"routes", [b"slowness"]) => SettingLine::Routes(RouteKind::Slowness),
        (b"route", [from, to, rest @ ..]) => SettingLine::Route {
            from: number(from)? as usize,
            to: number(to)? as usize,
            hops: hops(rest)?,
        },
        (b"bookings", [room]) => SettingLine::Bookings(number_below(room, MAX_BOOKINGS + 1)?),
        (b"timetable", [b"roll"]) => SettingLine::Timetable(Form::Roll),
        (b"timetable", [b"bits", words]) => SettingLine::Timetable(Form::Bits {
            words: number_below(words, MAX_WORDS + 1)?,
        }),
        _ => return Err(NotUnderstood),
    })
}

fn read_work(name: &[u8], words: &[&[u8]]) -> Result<WorkLine, NotUnderstood> {
    let call = match (name, words) {
        (b"answer", []) => return Ok(WorkLine::Answer),
        (b"mark", []) => return Ok(WorkLine::Mark),
        (b"show", []) => return Ok(WorkLine::Show),
        (b"row", [task, station, start]) => {
            return Ok(WorkLine::Row {
                task: number_below(task, MAX_TASKS)?,
                row: Placement {
                    station: number_below(station, MAX_STATIONS)?,
                    start: number(start)?,
                },
            })
        }
        (b"starts", [edge, starts @ ..]) if (1..=MAX_HOPS).contains(&starts.len()) => {
            return Ok(WorkLine::Starts {
                edge: number_below(edge, MAX_EDGES)?,
                starts: numbers(starts)?,
            })
        }
        (b"place", [task, machine]) => Call::Place {
            task: number(task)? as usize,
            machine: number(machine)? as usize,
        },
        (b"try", [task, machine]) => Call::Try {
            task: number(task)? as usize,
            machine: number(machine)? as usize,
        },
        (b"keep", []) => Call::Keep,
        (b"strike", []) => Call::Strike,
        (b"back", []) => Call::TakeBack,
        (b"fill", []) => Call::Fill,
        (b"hand", [b"in"]) => Call::HandIn,
        _ => return Err(NotUnderstood),
    };
    Ok(WorkLine::Call(call))
}
