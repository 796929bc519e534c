//! Lines of drawing: lists of calls that follow the order of the job, and calls at random.

use super::random::Random;
use super::setting::Size;
use crate::reference::Setting;

pub fn lines(random: &mut Random, setting: Setting<'_>, size: Size) -> Vec<String> {
    let mut lines = match size {
        Size::Small | Size::Medium => {
            let most = 2 * setting.job.task_count() + 6;
            let count = random.among(1..=most);
            calls(random, setting, count)
        }
        Size::Largest if random.one_in(2) => calls(random, setting, 40),
        Size::Largest => vec!["fill".to_owned()],
    };
    if random.one_in(3) {
        hand_in(random, &mut lines);
    }
    lines.push("show".to_owned());
    lines
}

/// Hands the sheet in, at times more than once: blank, at the end, after a try, or anywhere.
fn hand_in(random: &mut Random, lines: &mut Vec<String>) {
    for _ in 0..random.pick(&[1, 1, 1, 2, 3]) {
        let after_tries: Vec<usize> = (1..=lines.len())
            .filter(|&place| lines[place - 1].starts_with("try"))
            .collect();
        let place = match random.below(6) {
            0 => 0,
            1 | 2 => lines.len(),
            3 if !after_tries.is_empty() => random.pick(&after_tries),
            _ => random.below(lines.len() + 1),
        };
        lines.insert(place, "hand in".to_owned());
    }
}

/// Calls of which many place the next task, and the others are any.
fn calls(random: &mut Random, setting: Setting<'_>, count: usize) -> Vec<String> {
    let mut next = 0;
    (0..count)
        .map(|_| {
            let task = if random.one_in(6) {
                any_number(random, setting.job.task_count())
            } else {
                next
            };
            let machine = any_number(random, setting.network.station_count());
            match random.below(20) {
                0..=9 => {
                    next = (next + 1) % setting.job.task_count();
                    format!("place {task} {machine}")
                }
                10..=12 => {
                    next = (next + 1) % setting.job.task_count();
                    format!("try {task} {machine}")
                }
                13 | 14 => "keep".to_owned(),
                15 => "strike".to_owned(),
                16 | 17 => {
                    next = next.saturating_sub(1);
                    "back".to_owned()
                }
                18 => "fill".to_owned(),
                _ => "show".to_owned(),
            }
        })
        .collect()
}

/// A number below a count, or now and then one that is not.
fn any_number(random: &mut Random, count: usize) -> usize {
    match random.below(40) {
        0 => count,
        1 => u32::MAX as usize,
        _ => random.below(count),
    }
}
