//! Random jobs, networks and routes within their limits, and their lines in a script.

use super::random::Random;
use crate::reference::{
    fewest_hops, least_slow, Edge, Form, Hop, Link, Network, Routes, Station, MAX_EDGES, MAX_HOPS,
    MAX_LINKS, MAX_STATIONS, MAX_TASKS, MAX_WORDS,
};

#[derive(Clone, Copy, Debug, PartialEq, Eq)]
pub enum Size {
    Small,
    Medium,
    /// As large as the limits allow, or nearly.
    Largest,
}

impl Size {
    pub fn random(random: &mut Random) -> Size {
        match random.below(200) {
            0 => Size::Largest,
            1..=30 => Size::Medium,
            _ => Size::Small,
        }
    }

    /// A number that is at least 1 and at most the limit.
    fn count(self, random: &mut Random, limit: usize) -> usize {
        match self {
            Size::Small => random.among(1..=limit.min(6)),
            Size::Medium => random.among(1..=limit.min(24)),
            Size::Largest => limit - random.below(2),
        }
    }
}

/// The hops that a script writes for a pair of stations.
#[derive(Clone, Debug)]
pub struct Written {
    pub from: usize,
    pub to: usize,
    pub hops: Vec<Hop>,
}

#[derive(Clone, Debug)]
pub enum RouteLines {
    Hops,
    Slowness,
    Written(Vec<Written>),
}

/// What the lines of a setting say.
#[derive(Clone, Debug)]
pub struct Description {
    pub works: Vec<u32>,
    pub edges: Vec<Edge>,
    pub stations: Vec<Station>,
    pub links: Vec<Link>,
    pub routes: RouteLines,
    pub room: Option<usize>,
    /// The timetables that its lines name, of which the last counts.
    pub forms: Vec<Form>,
}

impl Description {
    pub fn random(random: &mut Random, size: Size) -> Description {
        let tasks = size.count(random, MAX_TASKS);
        let stations = stations(random, size);
        let links = links(random, size, stations.len());
        let routes = match random.below(3) {
            0 => RouteLines::Hops,
            1 => RouteLines::Slowness,
            _ => RouteLines::Written(written(random, &stations, &links)),
        };
        let mut description = Description {
            works: (0..tasks).map(|_| random.amount(1_000_000)).collect(),
            edges: edges(random, size, tasks),
            stations,
            links,
            routes,
            room: random.one_in(4).then(|| random.among(0..=tasks * 2)),
            forms: forms(random),
        };
        if random.one_in(4) {
            description.fit_to_words(random);
        }
        description
    }

    /// Lets tasks and transfers take about one word of a bit sheet, so that some end where a word or the sheet does.
    fn fit_to_words(&mut self, random: &mut Random) {
        const TICKS: [u32; 10] = [1, 16, 32, 63, 64, 65, 127, 128, 129, 192];
        for work in &mut self.works {
            *work = random.pick(&TICKS);
        }
        for edge in &mut self.edges {
            edge.volume = random.pick(&TICKS);
        }
        for station in &mut self.stations {
            if let Station::Machine { speed } = station {
                *speed = random.among(1..=2) as u32;
            }
        }
        for link in &mut self.links {
            link.speed = random.among(1..=2) as u32;
        }
        if random.one_in(2) {
            self.forms.push(Form::Bits {
                words: random.among(1..=6),
            });
        }
    }

    /// As large a job as there is, on 16 machines and 32 links.
    pub fn of_machines(random: &mut Random) -> Description {
        let stations: Vec<Station> = (0..MAX_STATIONS)
            .map(|_| Station::Machine {
                speed: random.amount(1_000),
            })
            .collect();
        let ends = (0..MAX_LINKS).map(|link| {
            let station = link % MAX_STATIONS;
            let other = (station + random.among(1..=MAX_STATIONS - 1)) % MAX_STATIONS;
            vec![station, other]
        });
        let links = ends.collect::<Vec<_>>().into_iter().map(|stations| Link {
            speed: random.amount(1_000),
            stations,
        });
        let links = links.collect();
        Description {
            works: (0..MAX_TASKS).map(|_| random.amount(1_000_000)).collect(),
            edges: edges(random, Size::Largest, MAX_TASKS),
            stations,
            links,
            routes: RouteLines::Hops,
            room: None,
            forms: Vec::new(),
        }
    }

    /// The routes of a description that is within its limits.
    pub fn routes(&self, network: &Network) -> Routes {
        match &self.routes {
            RouteLines::Hops => Routes::searched(network, fewest_hops),
            RouteLines::Slowness => Routes::searched(network, least_slow),
            RouteLines::Written(lines) => {
                let count = network.station_count();
                let mut rows = vec![None; count * count];
                for station in 0..count {
                    rows[count * station + station] = Some(Vec::new());
                }
                for Written { from, to, hops } in lines {
                    rows[count * from + to] = Some(hops.clone());
                }
                Routes::written(network, rows).expect("the routes keep the laws")
            }
        }
    }

    /// The lines of the script, those of a kind together.
    pub fn lines(&self) -> Vec<Vec<String>> {
        let (word, written) = match &self.routes {
            RouteLines::Hops => ("hops", &[][..]),
            RouteLines::Slowness => ("slowness", &[][..]),
            RouteLines::Written(lines) => ("written", &lines[..]),
        };
        vec![
            self.works
                .iter()
                .map(|work| format!("task {work}"))
                .collect(),
            self.edges
                .iter()
                .map(|edge| format!("edge {} {} {}", edge.from, edge.to, edge.volume))
                .collect(),
            self.stations.iter().map(station_line).collect(),
            self.links
                .iter()
                .map(|link| format!("link {}{}", link.speed, listed(&link.stations)))
                .collect(),
            vec![format!("routes {word}")],
            written.iter().map(route_line).collect(),
            self.room
                .iter()
                .map(|room| format!("bookings {room}"))
                .collect(),
            self.forms.iter().map(form_line).collect(),
        ]
    }
}

/// The numbers, with a space before each.
fn listed(numbers: &[usize]) -> String {
    numbers.iter().map(|number| format!(" {number}")).collect()
}

fn station_line(station: &Station) -> String {
    match station {
        Station::Machine { speed } => format!("machine {speed}"),
        Station::Switch => "switch".to_owned(),
    }
}

fn route_line(Written { from, to, hops }: &Written) -> String {
    let hops: Vec<usize> = hops
        .iter()
        .flat_map(|hop| [hop.link, hop.station])
        .collect();
    format!("route {from} {to}{}", listed(&hops))
}

fn form_line(form: &Form) -> String {
    match form {
        Form::Roll => "timetable roll".to_owned(),
        Form::Bits { words } => format!("timetable bits {words}"),
    }
}

/// The timetables that a script names: none, one, or several.
fn forms(random: &mut Random) -> Vec<Form> {
    let count = random.pick(&[0, 0, 1, 1, 1, 2, 3]);
    (0..count).map(|_| form(random)).collect()
}

/// A timetable: often a bit sheet that is full soon.
fn form(random: &mut Random) -> Form {
    if random.one_in(4) {
        return Form::Roll;
    }
    let words = match random.below(8) {
        0 => 0,
        1..=5 => random.among(1..=8),
        6 => random.among(1..=MAX_WORDS),
        _ => MAX_WORDS - random.below(2),
    };
    Form::Bits { words }
}

fn edges(random: &mut Random, size: Size, tasks: usize) -> Vec<Edge> {
    let mut pairs: Vec<(usize, usize)> = (0..tasks)
        .flat_map(|to| (0..to).map(move |from| (from, to)))
        .collect();
    random.shuffle(&mut pairs);
    let most = pairs.len().min(MAX_EDGES);
    let count = match size {
        Size::Small | Size::Medium => random.among(0..=most.min(2 * tasks)),
        Size::Largest => most,
    };
    pairs.truncate(count);
    pairs
        .into_iter()
        .map(|(from, to)| Edge {
            from,
            to,
            volume: random.amount(1_000_000),
        })
        .collect()
}

/// Stations, mostly machines. At least one is a machine.
fn stations(random: &mut Random, size: Size) -> Vec<Station> {
    let count = size.count(random, MAX_STATIONS);
    let sure = random.below(count);
    let switches = random.among(2..=6);
    (0..count)
        .map(|station| {
            if station != sure && random.one_in(switches) {
                Station::Switch
            } else {
                Station::Machine {
                    speed: random.amount(1_000),
                }
            }
        })
        .collect()
}

/// Links in a line, in a tree with some more, or at random.
fn links(random: &mut Random, size: Size, stations: usize) -> Vec<Link> {
    if stations < 2 {
        return Vec::new();
    }
    if stations > 3 && random.one_in(8) {
        return nearly_tied(random, stations);
    }
    let mut ends: Vec<Vec<usize>> = match random.below(4) {
        0 => (1..stations)
            .map(|station| vec![station - 1, station])
            .collect(),
        1 | 2 => (1..stations)
            .map(|station| vec![random.below(station), station])
            .collect(),
        _ => Vec::new(),
    };
    let more = size.count(random, MAX_LINKS);
    while ends.len() < more {
        let count = if random.one_in(5) { stations.min(5) } else { 2 };
        let mut joined: Vec<usize> = (0..stations).collect();
        random.shuffle(&mut joined);
        joined.truncate(count);
        if random.one_in(10) {
            joined.push(joined[0]);
        }
        ends.push(joined);
    }
    random.shuffle(&mut ends);
    ends.into_iter()
        .map(|stations| Link {
            speed: random.amount(1_000),
            stations,
        })
        .collect()
}

/// A link, and beside it three links in a row that are together as slow but for what is rounded up.
fn nearly_tied(random: &mut Random, stations: usize) -> Vec<Link> {
    let speed = random.amount(300);
    let mut ring: Vec<usize> = (0..stations).collect();
    random.shuffle(&mut ring);
    let mut links: Vec<Link> = ring[..4]
        .windows(2)
        .map(|ends| Link {
            speed: 3 * speed,
            stations: ends.to_vec(),
        })
        .collect();
    links.push(Link {
        speed,
        stations: vec![ring[3], ring[0]],
    });
    random.shuffle(&mut links);
    links
}

/// Routes that a script writes: found by the search or walked at random, and none for some pairs.
fn written(random: &mut Random, stations: &[Station], links: &[Link]) -> Vec<Written> {
    let network =
        Network::new(stations.to_vec(), links.to_vec()).expect("the network is within its limits");
    let searched = Routes::searched(&network, fewest_hops);
    let mut lines = Vec::new();
    for from in 0..stations.len() {
        for to in (0..stations.len()).filter(|&to| to != from) {
            let found = || searched.route(from, to).map(<[Hop]>::to_vec);
            let hops = match random.below(12) {
                0 => None,
                1..=6 => found(),
                _ => walk(random, links, from, to).or_else(found),
            };
            lines.extend(hops.map(|hops| Written { from, to, hops }));
        }
        if random.one_in(20) {
            lines.push(Written {
                from,
                to: from,
                hops: Vec::new(),
            });
        }
    }
    random.shuffle(&mut lines);
    lines
}

/// A walk at random over links that are all different, if it comes to its goal.
fn walk(random: &mut Random, links: &[Link], from: usize, to: usize) -> Option<Vec<Hop>> {
    let mut hops: Vec<Hop> = Vec::new();
    let mut station = from;
    while hops.len() < MAX_HOPS && (station != to || random.one_in(3)) {
        let is_new = |link: &usize| hops.iter().all(|hop| hop.link != *link);
        let ways: Vec<Hop> = (0..links.len())
            .filter(|&link| links[link].joins(station))
            .filter(is_new)
            .flat_map(|link| {
                links[link]
                    .stations
                    .iter()
                    .map(move |&to| Hop { link, station: to })
            })
            .filter(|hop| hop.station != station)
            .collect();
        if ways.is_empty() {
            break;
        }
        let hop = random.pick(&ways);
        station = hop.station;
        hops.push(hop);
    }
    (station == to && !hops.is_empty()).then_some(hops)
}
