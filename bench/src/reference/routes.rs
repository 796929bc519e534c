//! Routes: for each ordered pair of stations a list of hops, or none.

use super::network::Network;
use super::refusal::Refusal;

pub const MAX_HOPS: usize = 15;

/// A link, and the station that is reached over it.
#[derive(Clone, Copy, Debug, PartialEq, Eq)]
pub struct Hop {
    pub link: usize,
    pub station: usize,
}

#[derive(Clone, Debug)]
pub struct Routes {
    station_count: usize,
    /// The row of the pair from s to t is row `station_count` × s + t.
    rows: Vec<Option<Vec<Hop>>>,
}

impl Routes {
    /// Routes that keep the laws: from the search, or from rows that were tested.
    pub(super) fn from_rows(station_count: usize, rows: Vec<Option<Vec<Hop>>>) -> Routes {
        Routes {
            station_count,
            rows,
        }
    }

    /// Written routes. The first pair whose row is missing or breaks a law is refused.
    pub fn written(network: &Network, mut rows: Vec<Option<Vec<Hop>>>) -> Result<Routes, Refusal> {
        let count = network.station_count();
        for from in 0..count {
            for to in 0..count {
                let kept = rows
                    .get(count * from + to)
                    .is_some_and(|row| is_lawful(network, from, to, row.as_deref()));
                if !kept {
                    return Err(Refusal::BadRoute { from, to });
                }
            }
        }
        rows.truncate(count * count);
        Ok(Routes::from_rows(count, rows))
    }

    /// The route from a station of the network to another.
    pub fn route(&self, from: usize, to: usize) -> Option<&[Hop]> {
        self.rows[self.station_count * from + to].as_deref()
    }
}

/// A row of a pair keeps the laws of routes.
fn is_lawful(network: &Network, from: usize, to: usize, row: Option<&[Hop]>) -> bool {
    let Some(hops) = row else {
        return from != to;
    };
    if from == to {
        return hops.is_empty();
    }
    let mut left = from;
    for (place, hop) in hops.iter().enumerate() {
        let carries = network
            .links()
            .get(hop.link)
            .is_some_and(|link| link.joins(left) && link.joins(hop.station) && left != hop.station);
        let again = hops[..place].iter().any(|earlier| earlier.link == hop.link);
        if !carries || again {
            return false;
        }
        left = hop.station;
    }
    left == to && hops.len() <= MAX_HOPS
}
