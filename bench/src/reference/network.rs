//! A network: machines and switches, and the links that join them.

use super::refusal::Refusal;

pub const MAX_STATIONS: usize = 16;
pub const MAX_LINKS: usize = 32;
const MAX_SPEED: u32 = 1_000;

#[derive(Clone, Copy, Debug, PartialEq, Eq)]
pub enum Station {
    Machine { speed: u32 },
    Switch,
}

#[derive(Clone, Debug, PartialEq, Eq)]
pub struct Link {
    pub speed: u32,
    pub stations: Vec<usize>,
}

impl Link {
    pub fn joins(&self, station: usize) -> bool {
        self.stations.contains(&station)
    }

    /// Joins two or more of the first `count` stations, and no other.
    fn is_good(&self, count: usize) -> bool {
        let first = self.stations.first();
        self.stations.iter().any(|station| Some(station) != first)
            && self.stations.iter().all(|&station| station < count)
    }
}

#[derive(Clone, Debug)]
pub struct Network {
    stations: Vec<Station>,
    links: Vec<Link>,
}

impl Network {
    pub fn new(stations: Vec<Station>, links: Vec<Link>) -> Result<Network, Refusal> {
        if !(1..=MAX_STATIONS).contains(&stations.len()) {
            return Err(Refusal::ListLength(stations.len()));
        }
        if links.len() > MAX_LINKS {
            return Err(Refusal::ListLength(links.len()));
        }
        let is_bad = |station: &Station| match station {
            Station::Machine { speed } => !(1..=MAX_SPEED).contains(speed),
            Station::Switch => false,
        };
        if let Some(station) = stations.iter().position(is_bad) {
            return Err(Refusal::OutsideLimits(station));
        }
        if !stations
            .iter()
            .any(|station| matches!(station, Station::Machine { .. }))
        {
            return Err(Refusal::NoMachine);
        }
        for (number, link) in links.iter().enumerate() {
            if !(1..=MAX_SPEED).contains(&link.speed) {
                return Err(Refusal::OutsideLimits(number));
            }
            if !link.is_good(stations.len()) {
                return Err(Refusal::BadLink(number));
            }
        }
        Ok(Network { stations, links })
    }

    pub fn station_count(&self) -> usize {
        self.stations.len()
    }

    pub fn links(&self) -> &[Link] {
        &self.links
    }

    /// The speed of a machine; none for a switch, and for a station that is not there.
    pub fn machine_speed(&self, station: usize) -> Option<u32> {
        match self.stations.get(station) {
            Some(&Station::Machine { speed }) => Some(speed),
            _ => None,
        }
    }
}
