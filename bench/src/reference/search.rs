//! The search for routes: stations are settled one by one from a source, best first.

use super::network::{Link, Network};
use super::routes::{Hop, Routes};

/// What a link adds to the length of a walk by hops.
pub fn fewest_hops(_link: &Link) -> u64 {
    1
}

/// What a link adds to the length of a walk by slowness.
pub fn least_slow(link: &Link) -> u64 {
    1_000_000_u64.div_ceil(link.speed.into())
}

/// A station that is settled, with the way to it.
struct Settled {
    station: usize,
    length: u64,
    way: Vec<Hop>,
}

/// A way that goes on over one link. Ways are better by length, then by station, then by the place of the station that is
/// left in the order of settling, then by link.
#[derive(PartialEq, Eq, PartialOrd, Ord)]
struct Candidate {
    length: u64,
    station: usize,
    left: usize,
    link: usize,
}

/// The best way that goes on from a settled station to one that is not settled.
fn best(network: &Network, settled: &[Settled], added: fn(&Link) -> u64) -> Option<Candidate> {
    let is_settled = |station| settled.iter().any(|other| other.station == station);
    let mut ways = Vec::new();
    for (left, origin) in settled.iter().enumerate() {
        for (link, joining) in network.links().iter().enumerate() {
            if !joining.joins(origin.station) {
                continue;
            }
            let reached = joining.stations.iter().filter(|&&other| !is_settled(other));
            ways.extend(reached.map(|&station| Candidate {
                length: origin.length + added(joining),
                station,
                left,
                link,
            }));
        }
    }
    ways.into_iter().min()
}

/// The ways from a source to all stations that can be reached, as they are settled.
fn settle(network: &Network, source: usize, added: fn(&Link) -> u64) -> Vec<Settled> {
    let mut settled = vec![Settled {
        station: source,
        length: 0,
        way: Vec::new(),
    }];
    while let Some(next) = best(network, &settled, added) {
        let mut way = settled[next.left].way.clone();
        way.push(Hop {
            link: next.link,
            station: next.station,
        });
        settled.push(Settled {
            station: next.station,
            length: next.length,
            way,
        });
    }
    settled
}

impl Routes {
    /// The routes that the search finds, where each link adds this much to the length of a walk.
    pub fn searched(network: &Network, added: fn(&Link) -> u64) -> Routes {
        let count = network.station_count();
        let mut rows = vec![None; count * count];
        for source in 0..count {
            for settled in settle(network, source, added) {
                rows[count * source + settled.station] = Some(settled.way);
            }
        }
        Routes::from_rows(count, rows)
    }
}
