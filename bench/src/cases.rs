//! Scripts to compare on: random jobs, networks, routes, answers and calls, good and damaged, small and at the limits.

mod answers;
mod calls;
mod damage;
mod random;
mod setting;
mod text;

use crate::reference::{Job, Network, Routes, Setting};
pub use random::Random;
pub use setting::Description;
use setting::Size;

/// A random script.
pub fn script(random: &mut Random) -> Vec<u8> {
    let size = Size::random(random);
    let mut description = Description::random(random, size);
    let is_damaged = random.one_in(4);
    let mut work = work_lines(random, &description, size);
    if is_damaged {
        damage::of_setting(random, &mut description);
        work.truncate(20);
    }
    let mut lines = text::interleaved(random, description.lines());
    lines.extend(work);
    let mut script = text::written(random, &lines);
    if random.one_in(8) {
        damage::of_text(random, &mut script);
    }
    script
}

/// The lines that follow a setting: answers, calls, or both.
fn work_lines(random: &mut Random, description: &Description, size: Size) -> Vec<String> {
    let job = Job::new(description.works.clone(), description.edges.clone())
        .expect("the job is within its limits");
    let network = Network::new(description.stations.clone(), description.links.clone())
        .expect("the network is within its limits");
    let routes: Routes = description.routes(&network);
    let setting = Setting {
        job: &job,
        network: &network,
        routes: &routes,
    };
    let mut lists = Vec::new();
    if random.one_in(2) {
        lists.push(answers::lines(random, setting, size));
    }
    if !random.one_in(3) {
        lists.push(calls::lines(random, setting, size));
    }
    text::interleaved(random, lists)
}
