//! A job: tasks that feed each other files.

use super::refusal::Refusal;
use std::collections::HashSet;

pub const MAX_TASKS: usize = 128;
pub const MAX_EDGES: usize = 224;
const MAX_AMOUNT: u32 = 1_000_000;

#[derive(Clone, Copy, Debug, PartialEq, Eq)]
pub struct Edge {
    pub from: usize,
    pub to: usize,
    pub volume: u32,
}

#[derive(Clone, Debug)]
pub struct Job {
    works: Vec<u32>,
    edges: Vec<Edge>,
    /// For each task its incoming edges, by rising number.
    incoming: Vec<Vec<usize>>,
}

impl Job {
    pub fn new(works: Vec<u32>, edges: Vec<Edge>) -> Result<Job, Refusal> {
        if !(1..=MAX_TASKS).contains(&works.len()) {
            return Err(Refusal::ListLength(works.len()));
        }
        if edges.len() > MAX_EDGES {
            return Err(Refusal::ListLength(edges.len()));
        }
        if let Some(task) = works
            .iter()
            .position(|work| !(1..=MAX_AMOUNT).contains(work))
        {
            return Err(Refusal::OutsideLimits(task));
        }
        let mut pairs = HashSet::new();
        for (number, edge) in edges.iter().enumerate() {
            if !(1..=MAX_AMOUNT).contains(&edge.volume) {
                return Err(Refusal::OutsideLimits(number));
            }
            let rises = edge.from < edge.to && edge.to < works.len();
            if !rises || !pairs.insert((edge.from, edge.to)) {
                return Err(Refusal::BadEdge(number));
            }
        }
        let mut incoming = vec![Vec::new(); works.len()];
        for (number, edge) in edges.iter().enumerate() {
            incoming[edge.to].push(number);
        }
        Ok(Job {
            works,
            edges,
            incoming,
        })
    }

    pub fn task_count(&self) -> usize {
        self.works.len()
    }

    pub fn work(&self, task: usize) -> u32 {
        self.works[task]
    }

    pub fn edges(&self) -> &[Edge] {
        &self.edges
    }

    /// The edges into a task, by rising number.
    pub fn incoming(&self, task: usize) -> &[usize] {
        &self.incoming[task]
    }

    /// For each task its work and the greatest of volume plus bottom level over its outgoing edges.
    pub fn bottom_levels(&self) -> Vec<u64> {
        let mut levels: Vec<u64> = self.works.iter().map(|&work| work.into()).collect();
        // Edges rise, so when a task's turn comes its own level is done.
        for task in (0..self.task_count()).rev() {
            for &edge in self.incoming(task) {
                let Edge { from, volume, .. } = self.edges[edge];
                let through = u64::from(self.works[from]) + u64::from(volume) + levels[task];
                levels[from] = levels[from].max(through);
            }
        }
        levels
    }
}
