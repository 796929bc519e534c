//! A script is followed: what it describes is made, and what was found is printed.

use super::calls::{Answer, Call, Sheet};
use super::drawing::Drawing;
use super::job::{Edge, Job};
use super::marker::Slip;
use super::network::{Link, Network, Station};
use super::plan::{Plan, Setting};
use super::refusal::Refusal;
use super::routes::{Hop, Routes};
use super::search::{fewest_hops, least_slow};
use super::statement::{read, words, NotUnderstood, RouteKind, SettingLine, Statement, WorkLine};
use super::timetable::{Form, MAX_BOOKINGS};
use std::collections::HashMap;
use std::fmt::Write;

/// Why a script is followed no further.
enum Stop {
    NotUnderstood { line: usize },
    Refused { what: &'static str, why: Refusal },
}

/// A line that says something, with its number.
struct Numbered<'t> {
    number: usize,
    bytes: &'t [u8],
    said: Statement,
}

/// The lines that say something, one by one.
fn lines(script: &[u8]) -> impl Iterator<Item = Result<Numbered<'_>, Stop>> {
    let numbered = script.split(|&byte| byte == b'\n').zip(1..);
    numbered.filter_map(|(bytes, number)| {
        Some(match read(bytes)? {
            Ok(said) => Ok(Numbered {
                number,
                bytes,
                said,
            }),
            Err(NotUnderstood) => Err(Stop::NotUnderstood { line: number }),
        })
    })
}

/// What the lines of a setting gather.
struct Gathered {
    works: Vec<u32>,
    edges: Vec<Edge>,
    stations: Vec<Station>,
    links: Vec<Link>,
    kind: RouteKind,
    written: HashMap<(usize, usize), Vec<Hop>>,
    room: usize,
    form: Form,
}

impl Gathered {
    fn new() -> Gathered {
        Gathered {
            works: Vec::new(),
            edges: Vec::new(),
            stations: Vec::new(),
            links: Vec::new(),
            kind: RouteKind::Hops,
            written: HashMap::new(),
            room: MAX_BOOKINGS,
            form: Form::Roll,
        }
    }

    fn take(&mut self, line: SettingLine) {
        match line {
            SettingLine::Task(work) => self.works.push(work),
            SettingLine::Edge(edge) => self.edges.push(edge),
            SettingLine::Station(station) => self.stations.push(station),
            SettingLine::Link(link) => self.links.push(link),
            SettingLine::Routes(kind) => self.kind = kind,
            SettingLine::Route { from, to, hops } => {
                self.written.insert((from, to), hops);
            }
            SettingLine::Bookings(room) => self.room = room,
            SettingLine::Timetable(form) => self.form = form,
        }
    }
}

/// The routes that a script asks for.
fn make_routes(
    network: &Network,
    kind: RouteKind,
    mut written: HashMap<(usize, usize), Vec<Hop>>,
) -> Result<Routes, Refusal> {
    match kind {
        RouteKind::Hops => Ok(Routes::searched(network, fewest_hops)),
        RouteKind::Slowness => Ok(Routes::searched(network, least_slow)),
        RouteKind::Written => {
            let count = network.station_count();
            let pairs = (0..count).flat_map(|from| (0..count).map(move |to| (from, to)));
            let rows = pairs.map(|(from, to)| {
                let to_itself = (from == to).then(Vec::new);
                written.remove(&(from, to)).or(to_itself)
            });
            Routes::written(network, rows.collect())
        }
    }
}

/// What a script prints, and what the text does not tell of itself.
#[derive(Default)]
pub struct Followed {
    pub text: String,
    /// The timetable that is drawn over, if a job was made.
    pub form: Option<Form>,
    /// How many lines were printed before the sheet was handed in, if it was.
    pub before_slip: Option<usize>,
}

/// What the lines after the setting work on.
struct Work<'a> {
    setting: Setting<'a>,
    answer: Plan,
    sheet: Sheet<'a>,
    out: &'a mut Followed,
}

// What is written to a `String` is always written.
macro_rules! put_line {
    ($out:expr, $($what:tt)*) => { writeln!($out, $($what)*).expect("a String takes all") };
}

impl Work<'_> {
    fn follow(&mut self, line: WorkLine, bytes: &[u8]) {
        match line {
            WorkLine::Answer => self.answer = Plan::blank(),
            WorkLine::Row { task, row } => self.answer.tasks[task] = Some(row),
            WorkLine::Starts { edge, starts } => self.answer.transfers[edge] = starts,
            WorkLine::Mark => put_line!(self.out.text, "{}", Slip::new(self.setting, &self.answer)),
            WorkLine::Call(call) => self.call(call, bytes),
            WorkLine::Show => self.show(),
        }
    }

    fn call(&mut self, call: Call, bytes: &[u8]) {
        let was_handed_in = self.sheet.is_handed_in();
        let answer = self.sheet.carry_out(call);
        if self.sheet.is_handed_in() && !was_handed_in {
            self.out.before_slip = Some(self.out.text.lines().count());
        }
        if let Answer::Slip(slip) = answer {
            put_line!(self.out.text, "{slip}");
        } else {
            let words: Vec<_> = words(bytes).map(String::from_utf8_lossy).collect();
            put_line!(self.out.text, "{}: {answer}", words.join(" "));
        }
    }

    fn show(&mut self) {
        let plan = self.sheet.drawing().plan();
        for &task in &plan.steps {
            print_step(&mut self.out.text, self.setting, plan, task);
        }
        put_line!(self.out.text, "{}", Slip::new(self.setting, plan));
    }
}

/// A line for each booking of a step.
fn print_step(out: &mut String, setting: Setting<'_>, plan: &Plan, task: usize) {
    for &edge in setting.job.incoming(task) {
        for leg in setting.legs(plan, edge) {
            let link = leg.resource - 16;
            let (start, finish) = (leg.start, leg.finish());
            put_line!(out, "edge {edge} on link {link} from {start} to {finish}");
        }
    }
    if let Some(booking) = setting.task_booking(plan, task) {
        let (start, finish) = (booking.start, booking.finish());
        let machine = booking.resource;
        put_line!(
            out,
            "task {task} on machine {machine} from {start} to {finish}"
        );
    }
}

/// What was made of a setting.
struct Made {
    job: Job,
    network: Network,
    routes: Routes,
    kind: RouteKind,
    room: usize,
    form: Form,
}

impl Made {
    fn new(gathered: Gathered) -> Result<Made, Stop> {
        let refused = |what| move |why| Stop::Refused { what, why };
        let Gathered {
            kind, room, form, ..
        } = gathered;
        let job = Job::new(gathered.works, gathered.edges).map_err(refused("job"))?;
        let network =
            Network::new(gathered.stations, gathered.links).map_err(refused("network"))?;
        let routes = make_routes(&network, kind, gathered.written).map_err(refused("routes"))?;
        Ok(Made {
            job,
            network,
            routes,
            kind,
            room,
            form,
        })
    }

    fn print(&self, out: &mut String) {
        let origin = match self.kind {
            RouteKind::Hops => "by hops",
            RouteKind::Slowness => "by slowness",
            RouteKind::Written => "as written",
        };
        put_line!(
            out,
            "job of {} tasks and {} edges, network of {} stations and {} links, routes {origin}",
            self.job.task_count(),
            self.job.edges().len(),
            self.network.station_count(),
            self.network.links().len()
        );
    }

    fn work<'a>(&'a self, out: &'a mut Followed) -> Work<'a> {
        let setting = Setting {
            job: &self.job,
            network: &self.network,
            routes: &self.routes,
        };
        Work {
            setting,
            answer: Plan::blank(),
            sheet: Sheet::new(Drawing::new(setting, self.form, self.room)),
            out,
        }
    }
}

/// Takes in the lines of the setting, and gives the first other line too, if one comes.
fn gather<'t>(
    lines: impl Iterator<Item = Result<Numbered<'t>, Stop>>,
) -> Result<(Gathered, Option<Numbered<'t>>), Stop> {
    let mut gathered = Gathered::new();
    for line in lines {
        let line = line?;
        match line.said {
            Statement::Setting(setting) => gathered.take(setting),
            Statement::Work(_) => return Ok((gathered, Some(line))),
        }
    }
    Ok((gathered, None))
}

/// Follows the lines as far as they are understood, and adds what is found to `out`.
fn follow_lines(script: &[u8], out: &mut Followed) -> Result<(), Stop> {
    let mut lines = lines(script);
    let (gathered, first) = gather(lines.by_ref())?;
    let made = Made::new(gathered)?;
    made.print(&mut out.text);
    out.form = Some(made.form);
    let mut work = made.work(out);
    for line in first.map(Ok).into_iter().chain(lines) {
        let line = line?;
        match line.said {
            Statement::Work(said) => work.follow(said, line.bytes),
            Statement::Setting(_) => return Err(Stop::NotUnderstood { line: line.number }),
        }
    }
    Ok(())
}

/// What a script prints.
pub fn follow(script: &[u8]) -> Followed {
    let mut out = Followed::default();
    match follow_lines(script, &mut out) {
        Ok(()) => {}
        Err(Stop::NotUnderstood { line }) => put_line!(out.text, "line {line} not understood"),
        Err(Stop::Refused { what, why }) => put_line!(out.text, "{what} refused {why}"),
    }
    out
}
