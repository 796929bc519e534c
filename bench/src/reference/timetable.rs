//! When each resource is taken: docs/TIMETABLE.md.

use super::refusal::Refusal;

pub const MAX_BOOKINGS: usize = 4096;
/// The most words of a bit sheet, for each resource.
pub const MAX_WORDS: usize = 1024;
/// No booking of a roll goes beyond it, and no span of a lawful plan.
pub const HORIZON: u64 = 2_000_000_000;
const RESOURCES: usize = 48;

/// Which timetable is drawn over.
#[derive(Clone, Copy, Debug, PartialEq, Eq)]
pub enum Form {
    Roll,
    /// A bit sheet with so many words of 64 ticks for each resource.
    Bits {
        words: usize,
    },
}

impl Form {
    /// No booking goes beyond it.
    pub fn horizon(self) -> u64 {
        match self {
            Form::Roll => HORIZON,
            Form::Bits { words } => 64 * words as u64,
        }
    }
}

#[derive(Clone, Copy, Debug, PartialEq, Eq)]
pub struct Booking {
    pub resource: usize,
    pub start: u32,
    pub length: u32,
}

impl Booking {
    /// The first tick after it.
    pub fn finish(&self) -> u64 {
        u64::from(self.start) + u64::from(self.length)
    }

    /// Has a tick of the span that starts at `start` and takes `length`.
    fn shares(&self, start: u64, length: u64) -> bool {
        u64::from(self.start) < start + length && start < self.finish()
    }
}

#[derive(Clone, Debug)]
pub struct Timetable {
    horizon: u64,
    room: usize,
    /// In the order in which they were made.
    made: Vec<Booking>,
    by_start: Vec<Booking>,
}

impl Timetable {
    /// An empty timetable with room for so many bookings.
    pub fn new(form: Form, room: usize) -> Timetable {
        Timetable {
            horizon: form.horizon(),
            room,
            made: Vec::with_capacity(room),
            by_start: Vec::with_capacity(room),
        }
    }

    pub fn bookings(&self) -> &[Booking] {
        &self.made
    }

    pub fn room_left(&self) -> usize {
        self.room - self.made.len()
    }

    /// The least start at or after `from` at which the resource is free for `length` ticks.
    pub fn earliest(&self, resource: usize, from: u64, length: u32) -> Option<u32> {
        if length == 0 || resource >= RESOURCES {
            return None;
        }
        let length = u64::from(length);
        // Starts rise, so no booking that was passed is in the way again.
        let start = self
            .by_start
            .iter()
            .filter(|booking| booking.resource == resource)
            .fold(from, |start, booking| {
                if booking.shares(start, length) {
                    booking.finish()
                } else {
                    start
                }
            });
        (start + length <= self.horizon).then_some(start as u32)
    }

    fn is_free(&self, booking: &Booking) -> bool {
        self.earliest(booking.resource, booking.start.into(), booking.length) == Some(booking.start)
    }

    pub fn book(&mut self, booking: Booking) -> Result<(), Refusal> {
        if self.room_left() == 0 {
            return Err(Refusal::NoRoom(1));
        }
        if !self.is_free(&booking) {
            return Err(Refusal::NotFree(booking.resource));
        }
        let place = self
            .by_start
            .partition_point(|other| other.start <= booking.start);
        self.by_start.insert(place, booking);
        self.made.push(booking);
        Ok(())
    }

    pub fn take_back(&mut self) -> Result<Booking, Refusal> {
        let newest = self.made.pop().ok_or(Refusal::NothingToTakeBack)?;
        if let Some(place) = self.by_start.iter().position(|other| *other == newest) {
            self.by_start.remove(place);
        }
        Ok(newest)
    }
}
