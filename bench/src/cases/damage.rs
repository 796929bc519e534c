//! Damage: settings that a maker refuses, and text that is not understood.

use super::random::Random;
use super::setting::{Description, RouteLines, Written};
use crate::reference::{
    Edge, Hop, Link, Station, MAX_EDGES, MAX_HOPS, MAX_LINKS, MAX_STATIONS, MAX_TASKS,
};

const ANY: usize = u32::MAX as usize;

/// Damages a setting in one way, or in several, so that it matters which is found first.
pub fn of_setting(random: &mut Random, description: &mut Description) {
    for _ in 0..random.pick(&[1, 1, 1, 2, 3]) {
        match random.below(9) {
            0 | 1 => job(random, description),
            2 | 3 => network(random, description),
            4 | 5 => link(random, description),
            6 | 7 => routes(random, description),
            _ => long_route(random, description),
        }
    }
}

/// A value outside its limits, from 1 to `most`.
fn outside(random: &mut Random, most: u32) -> u32 {
    random.pick(&[0, most + 1, u32::MAX])
}

fn job(random: &mut Random, description: &mut Description) {
    let Description { works, edges, .. } = description;
    if works.is_empty() {
        return;
    }
    let task = random.below(works.len());
    match random.below(6) {
        0 => works[task] = outside(random, 1_000_000),
        1 => works.clear(),
        2 => works.resize(MAX_TASKS + random.among(1..=3), 1),
        3 => {
            let edge = Edge {
                from: 0,
                to: 1,
                volume: 1,
            };
            edges.resize(MAX_EDGES + random.among(1..=3), edge);
        }
        _ if edges.is_empty() => edges.push(Edge {
            from: task,
            to: task,
            volume: random.below(2) as u32,
        }),
        4 => {
            let edge = random.below(edges.len());
            edges[edge].volume = outside(random, 1_000_000);
        }
        _ => edge(random, works.len(), edges),
    }
}

fn edge(random: &mut Random, tasks: usize, edges: &mut Vec<Edge>) {
    let place = random.below(edges.len());
    let edge = &mut edges[place];
    match random.below(4) {
        0 => std::mem::swap(&mut edge.from, &mut edge.to),
        1 => edge.from = edge.to,
        2 => edge.to = random.pick(&[tasks, ANY]),
        _ => {
            let again = Edge {
                volume: random.amount(1_000_000),
                ..*edge
            };
            edges.push(again);
        }
    }
}

fn network(random: &mut Random, description: &mut Description) {
    let Description {
        stations, links, ..
    } = description;
    if stations.is_empty() {
        return;
    }
    let station = random.below(stations.len());
    match random.below(5) {
        0 => {
            stations[station] = Station::Machine {
                speed: outside(random, 1_000),
            }
        }
        1 => stations.clear(),
        2 => stations.resize(MAX_STATIONS + random.among(1..=3), Station::Switch),
        3 => {
            let link = Link {
                speed: 1,
                stations: vec![0, 1],
            };
            links.resize(MAX_LINKS + random.among(1..=3), link);
        }
        _ => stations.fill(Station::Switch),
    }
}

fn link(random: &mut Random, description: &mut Description) {
    let stations = description.stations.len();
    if description.links.is_empty() {
        description.links.push(Link {
            speed: 1,
            stations: vec![0, 1],
        });
    }
    let place = random.below(description.links.len());
    let link = &mut description.links[place];
    match random.below(5) {
        0 => link.speed = outside(random, 1_000),
        1 => link.stations.truncate(1),
        2 => link.stations.clear(),
        3 => link.stations = vec![0, 0],
        _ => link.stations.push(random.pick(&[stations, ANY])),
    }
}

fn routes(random: &mut Random, description: &mut Description) {
    let Description {
        routes,
        stations,
        links,
        ..
    } = description;
    if !matches!(routes, RouteLines::Written(lines) if !lines.is_empty()) {
        *routes = RouteLines::Written(vec![Written {
            from: random.below(stations.len().max(1)),
            to: random.below(stations.len().max(1)),
            hops: vec![Hop {
                link: 0,
                station: 0,
            }],
        }]);
    }
    let RouteLines::Written(lines) = routes else {
        return;
    };
    let place = random.below(lines.len());
    let Written { from, to, hops } = &mut lines[place];
    let (any_station, any_link) = (random.below(MAX_STATIONS), random.below(MAX_LINKS));
    let station = random.pick(&[any_station, *from, stations.len(), ANY]);
    let link = random.pick(&[any_link, links.len(), ANY]);
    match random.below(9) {
        0 => hops.clear(),
        1 => {
            hops.pop();
        }
        2 => *to = *from,
        3 => *to = station,
        4 => hops.push(Hop { link, station }),
        5 => hops.extend_from_within(..),
        6 => {
            // Back over the last link, and over it again.
            if let [.., before, last] = hops[..] {
                let back = Hop {
                    link: last.link,
                    station: before.station,
                };
                hops.extend([back, last]);
            }
        }
        7 => {
            for _ in hops.len()..random.among(15..=17) {
                hops.push(Hop { link, station });
            }
        }
        _ => {
            if let Some(hop) = hops.first_mut() {
                *hop = Hop { link, station };
            }
        }
    }
}

/// Writes a route of about as many hops as one may have, at times with a link twice.
fn long_route(random: &mut Random, description: &mut Description) {
    let Description {
        routes,
        stations,
        links,
        ..
    } = description;
    let most = MAX_HOPS + 2;
    let first = links.len();
    if stations.len() < 3 || first + most > MAX_LINKS {
        return;
    }
    for _ in 0..most {
        links.push(Link {
            speed: random.amount(1_000),
            stations: vec![0, 1, 2],
        });
    }
    let count = random.among(MAX_HOPS - 2..=most);
    let mut hops: Vec<Hop> = (0..count)
        .map(|hop| Hop {
            link: first + hop,
            station: if hop + 1 == count { 2 } else { (hop + 1) % 2 },
        })
        .collect();
    if random.one_in(3) {
        hops[random.below(count)].link = hops[random.below(count)].link;
    }
    if !matches!(routes, RouteLines::Written(_)) {
        *routes = RouteLines::Written(Vec::new());
    }
    if let RouteLines::Written(lines) = routes {
        lines.push(Written {
            from: 0,
            to: 2,
            hops,
        });
    }
}

/// Damages a script byte by byte, word by word or line by line.
pub fn of_text(random: &mut Random, script: &mut Vec<u8>) {
    if script.is_empty() {
        return;
    }
    match random.below(6) {
        0 => {
            script.remove(random.below(script.len()));
        }
        1 => script.insert(random.below(script.len()), random.below(256) as u8),
        2 => {
            let place = random.below(script.len());
            script[place] = random.pick(b" #\n0-z\0\xff");
        }
        3 => move_line(random, script),
        _ => add_line(random, script),
    }
}

fn move_line(random: &mut Random, script: &mut Vec<u8>) {
    let mut lines: Vec<&[u8]> = script.split(|&byte| byte == b'\n').collect();
    let line = lines.remove(random.below(lines.len()));
    for _ in 0..random.below(3) {
        lines.insert(random.below(lines.len() + 1), line);
    }
    *script = lines.join(&b'\n');
}

/// Lines of which most are not understood, and the others only where a setting may have them.
const LINES: [&[u8]; 40] = [
    b"task",
    b"task 1 1",
    b"task -1",
    b"edge 0 1",
    b"switch 1",
    b"machine 4294967296",
    b"machine 99999999999999999999999999",
    b"link",
    b"routes",
    b"routes none",
    b"routes slowness",
    b"route 0",
    b"route 0 1 0",
    b"bookings 4097",
    b"timetable",
    b"timetable roll",
    b"timetable roll 0",
    b"timetable bits",
    b"timetable bits 3",
    b"timetable bits 1024",
    b"timetable bits 1025",
    b"timetable bits 4294967296",
    b"timetable bits 1 1",
    b"timetable bits -1",
    b"timetable bits 0000000000000000000001",
    b"timetable Bits 1",
    b"timetable 3",
    b"row 128 0 0",
    b"row 0 16 0",
    b"starts 224 0",
    b"starts 0",
    b"starts 0 1 1 1 1 1 1 1 1 1 1 1 1 1 1 1 1",
    b"place 0",
    b"back 1",
    b"hand",
    b"hand in 0",
    b"hand over",
    b"hand In",
    b"in",
    b"dance",
];

fn add_line(random: &mut Random, script: &mut Vec<u8>) {
    let mut lines: Vec<&[u8]> = script.split(|&byte| byte == b'\n').collect();
    lines.insert(random.below(lines.len() + 1), random.pick(&LINES));
    *script = lines.join(&b'\n');
}
