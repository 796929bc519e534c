//! A plan: where and when each task is done, and when each file is on each link.

use super::job::{Job, MAX_EDGES, MAX_TASKS};
use super::network::Network;
use super::routes::{Hop, Routes};
use super::timetable::Booking;

/// The station on which a task is placed, and the tick at which it starts.
#[derive(Clone, Copy, Debug, PartialEq, Eq)]
pub struct Placement {
    pub station: usize,
    pub start: u32,
}

#[derive(Clone, Debug)]
pub struct Plan {
    pub tasks: [Option<Placement>; MAX_TASKS],
    /// For each transfer its starts, one for each hop.
    pub transfers: [Vec<u32>; MAX_EDGES],
    /// The tasks in the order in which they were placed.
    pub steps: Vec<usize>,
}

impl Plan {
    pub fn blank() -> Plan {
        Plan {
            tasks: [None; MAX_TASKS],
            transfers: [const { Vec::new() }; MAX_EDGES],
            steps: Vec::new(),
        }
    }

    pub fn placed_count(&self, job: &Job) -> usize {
        self.tasks[..job.task_count()].iter().flatten().count()
    }
}

/// The resource of a link in a timetable.
pub fn link_resource(link: usize) -> usize {
    16 + link
}

/// A job on a network with its routes: what plans are made of.
#[derive(Clone, Copy)]
pub struct Setting<'a> {
    pub job: &'a Job,
    pub network: &'a Network,
    pub routes: &'a Routes,
}

impl<'a> Setting<'a> {
    /// How long a task is on a machine.
    pub fn task_length(&self, task: usize, machine: usize) -> Option<u32> {
        let speed = self.network.machine_speed(machine)?;
        Some(self.job.work(task).div_ceil(speed))
    }

    /// How long a transfer is on a link.
    pub fn transfer_length(&self, edge: usize, link: usize) -> u32 {
        let volume = self.job.edges()[edge].volume;
        volume.div_ceil(self.network.links()[link].speed)
    }

    /// The booking of a placed task.
    pub fn task_booking(&self, plan: &Plan, task: usize) -> Option<Booking> {
        let Placement { station, start } = plan.tasks[task]?;
        Some(Booking {
            resource: station,
            start,
            length: self.task_length(task, station)?,
        })
    }

    /// The first tick after a task. It is none where the task is not placed on a machine.
    pub fn task_finish(&self, plan: &Plan, task: usize) -> Option<u64> {
        self.task_booking(plan, task)
            .map(|booking| booking.finish())
    }

    /// The greatest finish of a placed task, or 0.
    pub fn plan_length(&self, plan: &Plan) -> u64 {
        (0..self.job.task_count())
            .filter_map(|task| self.task_finish(plan, task))
            .max()
            .unwrap_or(0)
    }

    /// The stations on which the two tasks of an edge are placed, where they differ.
    pub fn stations_of(&self, plan: &Plan, edge: usize) -> Option<(usize, usize)> {
        let ends = self.job.edges()[edge];
        let from = plan.tasks[ends.from]?.station;
        let to = plan.tasks[ends.to]?.station;
        (from != to).then_some((from, to))
    }

    /// The hops of a transfer between different machines: none where it has no route, and empty where it needs none.
    pub fn hops_of(&self, plan: &Plan, edge: usize) -> Option<&'a [Hop]> {
        match self.stations_of(plan, edge) {
            Some((from, to)) => self.routes.route(from, to),
            None => Some(&[]),
        }
    }

    /// The legs of a transfer: its bookings, hop by hop.
    pub fn legs<'s>(&'s self, plan: &'s Plan, edge: usize) -> impl Iterator<Item = Booking> + 's {
        let hops = self.hops_of(plan, edge).unwrap_or(&[]);
        let starts = &plan.transfers[edge];
        hops.iter().zip(starts).map(move |(hop, &start)| Booking {
            resource: link_resource(hop.link),
            start,
            length: self.transfer_length(edge, hop.link),
        })
    }
}
