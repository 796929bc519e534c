//! An independent implementation of `docs/`: MODEL, RULES, REFUSALS, TIMETABLE, DRAWING and SCRIPT.
//!
//! It was written from those documents, and not from the proved code.

mod calls;
mod drawing;
mod job;
mod marker;
mod network;
mod plan;
mod refusal;
mod routes;
mod search;
mod session;
mod statement;
#[cfg(test)]
mod tests;
mod timetable;

pub use drawing::Drawing;
pub use job::{Edge, Job, MAX_EDGES, MAX_TASKS};
pub use network::{Link, Network, Station, MAX_LINKS, MAX_STATIONS};
pub use plan::{Placement, Plan, Setting};
pub use routes::{Hop, Routes, MAX_HOPS};
pub use search::{fewest_hops, least_slow};
pub use session::{follow, Followed};
pub use timetable::{Form, MAX_BOOKINGS, MAX_WORDS};
