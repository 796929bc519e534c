//! Lines of an answer: plans that were drawn at random, and the same with some rows changed, so that each rule is broken.

use super::random::Random;
use super::setting::Size;
use crate::reference::{
    Drawing, Form, Placement, Plan, Setting, MAX_BOOKINGS, MAX_EDGES, MAX_STATIONS, MAX_TASKS,
};

/// Answers that are marked: one as it was drawn, and some that are changed.
pub fn lines(random: &mut Random, setting: Setting<'_>, size: Size) -> Vec<String> {
    let drawn = drawn(random, setting);
    let changed = match size {
        Size::Small | Size::Medium => random.among(1..=8),
        Size::Largest => 3,
    };
    let mut lines = marked(random, &drawn);
    for _ in 0..changed {
        let mut plan = drawn.clone();
        for _ in 0..random.among(1..=2) {
            change(random, setting, &mut plan);
        }
        lines.extend(marked(random, &plan));
    }
    lines
}

/// A plan on machines at random, as far as they can be reached.
fn drawn(random: &mut Random, setting: Setting<'_>) -> Plan {
    let mut drawing = Drawing::new(setting, Form::Roll, MAX_BOOKINGS);
    let stations = setting.network.station_count();
    for task in 0..setting.job.task_count() {
        for _ in 0..3 {
            if drawing.place(task, random.below(stations)).is_ok() {
                break;
            }
        }
    }
    drawing.plan().clone()
}

/// The lines that write a plan, in any order, and mark it.
fn marked(random: &mut Random, plan: &Plan) -> Vec<String> {
    let mut rows = Vec::new();
    for (task, row) in plan.tasks.iter().enumerate() {
        if let Some(Placement { station, start }) = row {
            rows.push(format!("row {task} {station} {start}"));
        }
    }
    for (edge, starts) in plan.transfers.iter().enumerate() {
        if !starts.is_empty() {
            let starts: String = starts.iter().map(|start| format!(" {start}")).collect();
            rows.push(format!("starts {edge}{starts}"));
        }
    }
    random.shuffle(&mut rows);
    let mut lines = vec!["answer".to_owned()];
    lines.extend(rows);
    lines.push("mark".to_owned());
    lines
}

/// Changes a row of a plan.
fn change(random: &mut Random, setting: Setting<'_>, plan: &mut Plan) {
    let task = random.below(setting.job.task_count());
    match random.below(10) {
        0 => plan.tasks[task] = None,
        1 => {
            plan.tasks[random.below(MAX_TASKS)] = Some(Placement {
                station: random.below(MAX_STATIONS),
                start: random.below(50) as u32,
            });
        }
        2 => {
            let hops = random.among(1..=15);
            plan.transfers[random.below(MAX_EDGES)] = vec![random.below(50) as u32; hops];
        }
        3 => swap_tasks(random, setting, plan),
        4 | 5 => {
            if let Some(row) = &mut plan.tasks[task] {
                row.start = moved(random, row.start);
            }
        }
        6 if random.one_in(2) => {
            if let Some(row) = &mut plan.tasks[task] {
                row.station = random.below(setting.network.station_count());
            }
        }
        6 => be_late(random, setting, plan),
        _ => change_transfer(random, setting, plan),
    }
}

/// A start near another, or near the horizon, or at a limit of 32 bits.
fn moved(random: &mut Random, start: u32) -> u32 {
    let by = random.amount(1_000);
    match random.below(12) {
        0 => 2_000_000_000 - random.below(3) as u32,
        1 => u32::MAX - random.below(2) as u32,
        2..=6 => start.saturating_sub(by),
        _ => start.saturating_add(by),
    }
}

/// Lets one of two tasks start when the other does.
fn swap_tasks(random: &mut Random, setting: Setting<'_>, plan: &mut Plan) {
    let tasks = setting.job.task_count();
    let other = plan.tasks[random.below(tasks)];
    if let (Some(row), Some(other)) = (&mut plan.tasks[random.below(tasks)], other) {
        row.start = other.start;
    }
}

/// Lets a task without successors end at the horizon, or one tick later.
fn be_late(random: &mut Random, setting: Setting<'_>, plan: &mut Plan) {
    let task = random.below(setting.job.task_count());
    let feeds = setting.job.edges().iter().any(|edge| edge.from == task);
    if let (Some(row), false) = (&mut plan.tasks[task], feeds) {
        let length = setting.task_length(task, row.station).unwrap_or(1);
        row.start = 2_000_000_000 - length + random.below(2) as u32;
    }
}

/// Moves a start of a transfer, all of its starts, or their number.
fn change_transfer(random: &mut Random, setting: Setting<'_>, plan: &mut Plan) {
    let filled: Vec<usize> = (0..setting.job.edges().len())
        .filter(|&edge| !plan.transfers[edge].is_empty())
        .collect();
    if filled.is_empty() {
        return;
    }
    let edge = random.pick(&filled);
    let starts = &mut plan.transfers[edge];
    let hop = random.below(starts.len());
    match random.below(8) {
        0 => {
            starts.pop();
        }
        1 if starts.len() < 15 => starts.push(starts[hop]),
        2..=4 => starts[hop] = moved(random, starts[hop]),
        5 => starts.swap(0, hop),
        _ => {
            let by = random.amount(1_000);
            let earlier = random.one_in(3);
            for start in starts.iter_mut() {
                *start = if earlier {
                    start.saturating_sub(by)
                } else {
                    *start + by
                };
            }
            // The task waits for its file, so that only the link is in the way.
            let to = setting.job.edges()[edge].to;
            if let (Some(row), false) = (&mut plan.tasks[to], earlier) {
                row.start += by;
            }
        }
    }
}
