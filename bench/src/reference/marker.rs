//! Rules A to I: docs/RULES.md.

use super::job::{MAX_EDGES, MAX_TASKS};
use super::network::MAX_LINKS;
use super::plan::{link_resource, Plan, Setting};
use super::timetable::HORIZON;
use std::fmt;
use std::ops::Range;

/// The letter of a rule and the two numbers by which it is broken.
#[derive(Clone, Copy, Debug, PartialEq, Eq)]
pub struct Fault {
    pub rule: char,
    pub first: usize,
    pub second: usize,
}

/// What is said of a plan that was marked.
#[derive(Clone, Copy, Debug, PartialEq, Eq)]
pub enum Slip {
    Lawful {
        placed: usize,
        tasks: usize,
        length: u64,
    },
    Broken(Fault),
}

impl Slip {
    pub fn new(setting: Setting<'_>, plan: &Plan) -> Slip {
        mark(setting, plan).map_or_else(
            || Slip::Lawful {
                placed: plan.placed_count(setting.job),
                tasks: setting.job.task_count(),
                length: setting.plan_length(plan),
            },
            Slip::Broken,
        )
    }
}

impl fmt::Display for Slip {
    fn fmt(&self, f: &mut fmt::Formatter<'_>) -> fmt::Result {
        match self {
            Slip::Lawful {
                placed,
                tasks,
                length,
            } => write!(f, "lawful placed {placed} of {tasks} length {length}"),
            Slip::Broken(Fault {
                rule,
                first,
                second,
            }) => write!(f, "broken {rule} {first} {second}"),
        }
    }
}

/// How a rule is broken: the lowest first number, and of those the lowest second number.
type Rule<'a> = fn(&Marking<'a>) -> Option<(usize, usize)>;

/// The first rule that a plan breaks; none where it is lawful.
fn mark(setting: Setting<'_>, plan: &Plan) -> Option<Fault> {
    let marking = Marking { setting, plan };
    Marking::RULES.iter().find_map(|&(rule, broken)| {
        broken(&marking).map(|(first, second)| Fault {
            rule,
            first,
            second,
        })
    })
}

/// Rules A, B and C hold, as they have to where a plan is drawn on.
pub fn may_be_drawn_on(setting: Setting<'_>, plan: &Plan) -> bool {
    let marking = Marking { setting, plan };
    Marking::RULES[..3]
        .iter()
        .all(|(_, broken)| broken(&marking).is_none())
}

/// A plan that is marked. Each rule relies on the ones before it.
struct Marking<'a> {
    setting: Setting<'a>,
    plan: &'a Plan,
}

type Span = Range<u64>;

fn share_a_tick(one: &Span, other: &Span) -> bool {
    one.start < other.end && other.start < one.end
}

/// The pair of items with the lowest numbers whose spans share a tick.
fn lowest_sharing<T>(items: &[T], share: impl Fn(&T, &T) -> bool) -> Option<(usize, usize)> {
    items.iter().enumerate().find_map(|(lower, one)| {
        let higher = items[lower + 1..]
            .iter()
            .position(|other| share(one, other))?;
        Some((lower, lower + 1 + higher))
    })
}

impl<'a> Marking<'a> {
    const RULES: [(char, Rule<'a>); 9] = [
        ('A', Self::unknown_row),
        ('B', Self::missing_predecessor),
        ('C', Self::wrong_starts),
        ('D', Self::beyond_horizon),
        ('E', Self::early_transfer),
        ('F', Self::early_hop),
        ('G', Self::early_task),
        ('H', Self::tasks_sharing),
        ('I', Self::transfers_sharing),
    ];

    fn edges(&self) -> Range<usize> {
        0..self.setting.job.edges().len()
    }

    /// The first edge with a fault, beside the number 0.
    fn first_edge(&self, has_fault: impl Fn(usize) -> bool) -> Option<(usize, usize)> {
        self.edges()
            .find(|&edge| has_fault(edge))
            .map(|edge| (edge, 0))
    }

    fn unknown_row(&self) -> Option<(usize, usize)> {
        let Setting { job, network, .. } = self.setting;
        let is_bad_task = |task: &usize| {
            self.plan.tasks[*task].is_some_and(|placement| {
                *task >= job.task_count() || network.machine_speed(placement.station).is_none()
            })
        };
        let is_bad_edge =
            |edge: &usize| *edge >= job.edges().len() && !self.plan.transfers[*edge].is_empty();
        let task = (0..MAX_TASKS).find(is_bad_task).map(|task| (0, task));
        task.or_else(|| (0..MAX_EDGES).find(is_bad_edge).map(|edge| (1, edge)))
    }

    fn missing_predecessor(&self) -> Option<(usize, usize)> {
        self.first_edge(|edge| {
            let ends = self.setting.job.edges()[edge];
            self.plan.tasks[ends.to].is_some() && self.plan.tasks[ends.from].is_none()
        })
    }

    fn wrong_starts(&self) -> Option<(usize, usize)> {
        self.first_edge(|edge| {
            let hops = self.setting.hops_of(self.plan, edge);
            hops.is_none_or(|hops| hops.len() != self.plan.transfers[edge].len())
        })
    }

    fn beyond_horizon(&self) -> Option<(usize, usize)> {
        let late_task = (0..self.setting.job.task_count()).find(|&task| {
            self.setting
                .task_finish(self.plan, task)
                .is_some_and(|finish| finish > HORIZON)
        });
        let late_edge = || {
            self.edges().find(|&edge| {
                self.setting
                    .legs(self.plan, edge)
                    .any(|leg| leg.finish() > HORIZON)
            })
        };
        late_task
            .map(|task| (0, task))
            .or_else(|| late_edge().map(|edge| (1, edge)))
    }

    fn early_transfer(&self) -> Option<(usize, usize)> {
        self.first_edge(|edge| {
            let from = self.setting.job.edges()[edge].from;
            let ready = self.setting.task_finish(self.plan, from);
            let first = self.plan.transfers[edge].first();
            first.is_some_and(|&start| Some(u64::from(start)) < ready)
        })
    }

    fn early_hop(&self) -> Option<(usize, usize)> {
        self.edges().find_map(|edge| {
            let legs: Vec<_> = self.setting.legs(self.plan, edge).collect();
            let hop = legs.windows(2).position(|pair| {
                pair[1].start < legs[0].start || pair[1].finish() < pair[0].finish()
            })?;
            Some((edge, hop + 1))
        })
    }

    fn early_task(&self) -> Option<(usize, usize)> {
        self.first_edge(|edge| {
            let ends = self.setting.job.edges()[edge];
            let Some(placement) = self.plan.tasks[ends.to] else {
                return false;
            };
            let ready = match self.setting.stations_of(self.plan, edge) {
                Some(_) => self
                    .setting
                    .legs(self.plan, edge)
                    .map(|leg| leg.finish())
                    .max(),
                None => self.setting.task_finish(self.plan, ends.from),
            };
            Some(u64::from(placement.start)) < ready
        })
    }

    fn tasks_sharing(&self) -> Option<(usize, usize)> {
        let spans: Vec<Option<(usize, Span)>> = (0..self.setting.job.task_count())
            .map(|task| {
                let placement = self.plan.tasks[task]?;
                let finish = self.setting.task_finish(self.plan, task)?;
                Some((placement.station, placement.start.into()..finish))
            })
            .collect();
        lowest_sharing(&spans, |one, other| match (one, other) {
            (Some((here, one)), Some((there, other))) => here == there && share_a_tick(one, other),
            _ => false,
        })
    }

    fn transfers_sharing(&self) -> Option<(usize, usize)> {
        let transfers: Vec<OnLinks> = self
            .edges()
            .map(|edge| OnLinks::new(self.setting, self.plan, edge))
            .collect();
        lowest_sharing(&transfers, OnLinks::share_a_tick)
    }
}

/// When a transfer is on which link.
struct OnLinks {
    links: Vec<usize>,
    /// For each link the ticks at which the transfer is on it: none at a link that is not its own.
    spans: [Span; MAX_LINKS],
}

impl OnLinks {
    fn new(setting: Setting<'_>, plan: &Plan, edge: usize) -> OnLinks {
        let mut on_links = OnLinks {
            links: Vec::new(),
            spans: [const { 0..0 }; MAX_LINKS],
        };
        for leg in setting.legs(plan, edge) {
            let link = leg.resource - link_resource(0);
            on_links.links.push(link);
            on_links.spans[link] = leg.start.into()..leg.finish();
        }
        on_links
    }

    fn share_a_tick(&self, other: &OnLinks) -> bool {
        self.links
            .iter()
            .any(|&link| share_a_tick(&self.spans[link], &other.spans[link]))
    }
}
