//! The speed of both sides, at the largest plan that is marked and at a large job that is filled.

use crate::cases::{Description, Random};
use crate::proved::Proved;
use crate::reference;
use std::fmt;
use std::hint::black_box;
use std::time::{Duration, Instant};

/// How often the times are taken anew.
const REPEATS: usize = 5;

/// How often each script is followed in a repeat; the fastest counts.
const ROUNDS: usize = 12;

/// The proved side is to take at most so many times as long.
const MOST: f64 = 1.5;

/// The least times to follow a script: on the proved side with the lines that are timed and without them, and on the
/// other side with and without them.
type Least = [Duration; 4];

const NEVER: Least = [Duration::MAX; 4];

/// The lesser of two times, for each of the four.
fn lesser(one: Least, other: Least) -> Least {
    std::array::from_fn(|place| one[place].min(other[place]))
}

/// The time of one line on both sides.
struct Pair {
    proved: Duration,
    reference: Duration,
}

impl Pair {
    /// The script with so many lines less the script without them.
    fn new([proved_with, proved_without, with, without]: Least, lines: u32) -> Pair {
        Pair {
            proved: proved_with.saturating_sub(proved_without) / lines,
            reference: with.saturating_sub(without) / lines,
        }
    }

    fn ratio(&self) -> f64 {
        self.proved.as_secs_f64() / self.reference.as_secs_f64()
    }
}

/// The times that a task takes, in each of the repeats.
pub struct Times {
    task: &'static str,
    repeats: [Least; REPEATS],
    lines: u32,
}

impl fmt::Display for Times {
    fn fmt(&self, f: &mut fmt::Formatter<'_>) -> fmt::Result {
        let least = self.repeats.into_iter().fold(NEVER, lesser);
        let least = Pair::new(least, self.lines);
        write!(
            f,
            "{}: proved {:.3} ms, Rust {:.3} ms, ratio proved/Rust {:.2}",
            self.task,
            least.proved.as_secs_f64() * 1e3,
            least.reference.as_secs_f64() * 1e3,
            least.ratio()
        )?;
        if least.ratio() > MOST {
            write!(f, ", which is more than {MOST}")?;
        }
        write!(f, " (the {REPEATS} repeats:")?;
        for repeat in self.repeats {
            write!(f, " {:.2}", Pair::new(repeat, self.lines).ratio())?;
        }
        write!(f, ")")
    }
}

/// A script without the lines that are timed, and those lines, each of which is written so many times.
struct Timed {
    task: &'static str,
    setting: Vec<u8>,
    line: &'static [u8],
    lines: u32,
}

impl Timed {
    /// Marking the largest plan.
    fn marking() -> Timed {
        let script = include_str!("../../examples/largest.script");
        let setting = script
            .lines()
            .filter(|line| *line != "mark")
            .collect::<Vec<_>>();
        Timed {
            task: "mark 128 tasks and 224 transfers of 15 hops",
            setting: setting.join("\n").into_bytes(),
            line: b"\nmark",
            lines: 16,
        }
    }

    /// Filling as large a job as there is, on as large a network.
    fn filling() -> Timed {
        let mut random = Random::of_script(1, 1);
        let description = Description::of_machines(&mut random);
        Timed {
            task: "fill 128 tasks and 224 edges on 16 machines and 32 links",
            setting: description.lines().concat().join("\n").into_bytes(),
            line: b"\nfill",
            lines: 1,
        }
    }

    /// The script with the lines that are timed, and without them.
    fn scripts(&self) -> [Vec<u8>; 2] {
        // A line that changes nothing else ends the setting, so that the job is made.
        let end = b"\nanswer";
        let lines = self.line.repeat(self.lines as usize);
        [
            [&self.setting, &lines[..], end].concat(),
            [&self.setting, &end[..]].concat(),
        ]
    }

    /// The times of a line, taken anew so many times.
    ///
    /// # Panics
    ///
    /// If the sides print different texts.
    fn times(&self, proved: &mut Proved) -> Times {
        let scripts = self.scripts();
        for script in &scripts {
            assert!(proved.follow(script) == reference::follow(script).text.as_bytes());
        }
        Times {
            task: self.task,
            repeats: [(); REPEATS].map(|()| Timed::least(&scripts, proved)),
            lines: self.lines,
        }
    }

    /// The least times of some rounds.
    fn least([with, without]: &[Vec<u8>; 2], proved: &mut Proved) -> Least {
        // The sides take turns, so that what else the machine does strikes both.
        let rounds = (0..ROUNDS).map(|_| {
            [
                time(|| proved.follow(black_box(with)).len()),
                time(|| proved.follow(black_box(without)).len()),
                time(|| reference::follow(black_box(with)).text.len()),
                time(|| reference::follow(black_box(without)).text.len()),
            ]
        });
        rounds.fold(NEVER, lesser)
    }
}

/// How long some work takes.
fn time<T>(work: impl FnOnce() -> T) -> Duration {
    let begin = Instant::now();
    black_box(work());
    begin.elapsed()
}

/// The times of both sides at both tasks.
pub fn times() -> [Times; 2] {
    let mut proved = Proved::new();
    [Timed::marking(), Timed::filling()].map(|timed| timed.times(&mut proved))
}
