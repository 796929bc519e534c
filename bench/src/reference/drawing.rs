//! Drawing: tasks are placed one by one, each booking at the earliest free start. docs/DRAWING.md.

use super::marker::{self, Slip};
use super::plan::{link_resource, Placement, Plan, Setting};
use super::refusal::Refusal;
use super::routes::Hop;
use super::timetable::{Booking, Form, Timetable};
use std::cmp::Reverse;

#[cfg(test)]
mod tests;

/// A plan that is drawn, with its timetable and the number of steps that its sheet counts.
pub struct Drawing<'a> {
    setting: Setting<'a>,
    plan: Plan,
    timetable: Timetable,
    counted: usize,
}

impl<'a> Drawing<'a> {
    /// A blank plan, over a timetable with room for so many bookings.
    pub fn new(setting: Setting<'a>, form: Form, room: usize) -> Drawing<'a> {
        Drawing {
            setting,
            plan: Plan::blank(),
            timetable: Timetable::new(form, room),
            counted: 0,
        }
    }

    pub fn plan(&self) -> &Plan {
        &self.plan
    }

    /// Places a task, and gives the tick at which it finishes.
    pub fn place(&mut self, task: usize, machine: usize) -> Result<u64, Refusal> {
        self.test_order()?;
        self.place_in_order(task, machine)
    }

    /// Takes back the last step, and gives its task.
    pub fn take_back(&mut self) -> Result<usize, Refusal> {
        self.test_order()?;
        self.undo_step().ok_or(Refusal::NothingToTakeBack)
    }

    /// Places all tasks that are not placed, each where it finishes first, and gives the length of the plan.
    pub fn fill(&mut self) -> Result<u64, Refusal> {
        self.test_order()?;
        let before = self.plan.steps.len();
        for task in self.waiting() {
            let placed = match self.best_machine(task) {
                Some(machine) => self.place_in_order(task, machine).map(|_| ()),
                None => Err(Refusal::RefusedEverywhere(task)),
            };
            if let Err(refusal) = placed {
                while self.plan.steps.len() > before {
                    self.undo_step();
                }
                return Err(refusal);
            }
        }
        Ok(self.setting.plan_length(&self.plan))
    }

    /// Marks the sheet, which has to belong to the plan.
    pub fn slip(&self) -> Result<Slip, Refusal> {
        if self.belongs() {
            Ok(Slip::new(self.setting, &self.plan))
        } else {
            Err(Refusal::NotTogether)
        }
    }

    fn test_order(&self) -> Result<(), Refusal> {
        if self.is_in_order() {
            Ok(())
        } else {
            Err(Refusal::NotTogether)
        }
    }

    /// Sheet, plan and timetable belong together.
    fn is_in_order(&self) -> bool {
        self.belongs()
            && marker::may_be_drawn_on(self.setting, &self.plan)
            && self
                .drawn_bookings()
                .eq(self.timetable.bookings().iter().copied())
    }

    /// The sheet belongs to the plan.
    fn belongs(&self) -> bool {
        let Setting { job, .. } = self.setting;
        let Plan {
            tasks,
            transfers,
            steps,
        } = &self.plan;
        let mut is_step = [false; super::MAX_TASKS];
        for &task in steps {
            if task >= job.task_count() || is_step[task] {
                return false;
            }
            is_step[task] = true;
        }
        let mut filled = job.edges().iter().zip(transfers);
        self.counted == steps.len()
            && tasks
                .iter()
                .zip(is_step)
                .all(|(row, is_step)| row.is_some() == is_step)
            && filled.all(|(edge, starts)| starts.is_empty() || is_step[edge.to])
    }

    /// The plan's bookings, step by step.
    fn drawn_bookings(&self) -> impl Iterator<Item = Booking> + '_ {
        self.plan.steps.iter().flat_map(|&task| {
            let edges = self.setting.job.incoming(task).iter();
            let legs = edges.flat_map(|&edge| self.setting.legs(&self.plan, edge));
            legs.chain(self.setting.task_booking(&self.plan, task))
        })
    }

    /// The tasks that are not placed, by falling bottom level, the lowest number first among equals.
    fn waiting(&self) -> Vec<usize> {
        let levels = self.setting.job.bottom_levels();
        let mut waiting: Vec<usize> = (0..levels.len())
            .filter(|&task| self.plan.tasks[task].is_none())
            .collect();
        waiting.sort_by_key(|&task| (Reverse(levels[task]), task));
        waiting
    }

    /// The machine on which a task finishes first, the lowest among equals.
    fn best_machine(&mut self, task: usize) -> Option<usize> {
        let stations = 0..self.setting.network.station_count();
        let finishes = stations.filter_map(|machine| {
            let finish = self.place_in_order(task, machine).ok()?;
            self.undo_step();
            Some((finish, machine))
        });
        finishes.min().map(|(_, machine)| machine)
    }

    fn place_in_order(&mut self, task: usize, machine: usize) -> Result<u64, Refusal> {
        self.test_place(task, machine)?;
        let before = self.timetable.bookings().len();
        let booked = self.book_step(task, machine);
        if booked.is_err() {
            self.clear(task, before);
        }
        booked
    }

    /// The causes for which a task is refused before anything is booked.
    fn test_place(&self, task: usize, machine: usize) -> Result<(), Refusal> {
        let Setting { job, network, .. } = self.setting;
        if task >= job.task_count() {
            return Err(Refusal::UnknownTask(task));
        }
        if network.machine_speed(machine).is_none() {
            return Err(Refusal::NotAMachine(machine));
        }
        if self.plan.tasks[task].is_some() {
            return Err(Refusal::PlacedAlready(task));
        }
        let predecessors = job
            .incoming(task)
            .iter()
            .map(|&edge| job.edges()[edge].from);
        if let Some(missing) = predecessors
            .filter(|&from| self.plan.tasks[from].is_none())
            .min()
        {
            return Err(Refusal::PredecessorNotPlaced(missing));
        }
        let mut needed = 1;
        for &edge in job.incoming(task) {
            needed += self
                .hops_to(edge, machine)
                .ok_or(Refusal::NoRoute(edge))?
                .len();
        }
        if needed > self.timetable.room_left() {
            return Err(Refusal::NoRoom(needed));
        }
        Ok(())
    }

    /// The hops of an edge from where its origin is placed to a machine: empty where that is the same one.
    fn hops_to(&self, edge: usize, machine: usize) -> Option<&'a [Hop]> {
        let from = self.plan.tasks[self.setting.job.edges()[edge].from]?;
        if from.station == machine {
            return Some(&[]);
        }
        self.setting.routes.route(from.station, machine)
    }

    /// Books the transfers into a task and then the task, and gives its finish. Where one is refused, the others stay.
    fn book_step(&mut self, task: usize, machine: usize) -> Result<u64, Refusal> {
        let Setting { job, .. } = self.setting;
        let mut ready = 0;
        for &edge in job.incoming(task) {
            let hops = self.hops_to(edge, machine).ok_or(Refusal::NoRoute(edge))?;
            ready = ready.max(self.book_transfer(edge, hops)?);
        }
        let length = self
            .setting
            .task_length(task, machine)
            .ok_or(Refusal::NotAMachine(machine))?;
        let booking = self.book(machine, ready, length)?;
        self.plan.tasks[task] = Some(Placement {
            station: machine,
            start: booking.start,
        });
        self.plan.steps.push(task);
        self.counted += 1;
        Ok(booking.finish())
    }

    /// Books a transfer hop by hop, and gives the tick at which its file is there.
    fn book_transfer(&mut self, edge: usize, hops: &[Hop]) -> Result<u64, Refusal> {
        let from = self.setting.job.edges()[edge].from;
        // The predecessors are placed.
        let mut there = self.setting.task_finish(&self.plan, from).unwrap_or(0);
        let mut first_start = there;
        for (place, hop) in hops.iter().enumerate() {
            let length = self.setting.transfer_length(edge, hop.link);
            let from = first_start.max(match place {
                0 => there,
                _ => there.saturating_sub(length.into()),
            });
            let booking = self.book(link_resource(hop.link), from, length)?;
            self.plan.transfers[edge].push(booking.start);
            if place == 0 {
                first_start = booking.start.into();
            }
            there = booking.finish();
        }
        Ok(there)
    }

    /// Books a resource at the earliest start at or after a tick.
    fn book(&mut self, resource: usize, from: u64, length: u32) -> Result<Booking, Refusal> {
        let start = self
            .timetable
            .earliest(resource, from, length)
            .ok_or(Refusal::NotFree(resource))?;
        let booking = Booking {
            resource,
            start,
            length,
        };
        self.timetable.book(booking)?;
        Ok(booking)
    }

    /// Takes back the last step, if there is one, and gives its task.
    fn undo_step(&mut self) -> Option<usize> {
        let task = self.plan.steps.pop()?;
        let edges = self.setting.job.incoming(task).iter();
        let legs: usize = edges.map(|&edge| self.plan.transfers[edge].len()).sum();
        self.clear(task, self.timetable.bookings().len() - legs - 1);
        self.counted -= 1;
        Some(task)
    }

    /// Blanks the rows of a task and of the edges into it, and leaves only so many bookings.
    fn clear(&mut self, task: usize, bookings: usize) {
        while self.timetable.bookings().len() > bookings && self.timetable.take_back().is_ok() {}
        self.plan.tasks[task] = None;
        for &edge in self.setting.job.incoming(task) {
            self.plan.transfers[edge].clear();
        }
    }
}
