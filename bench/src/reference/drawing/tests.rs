//! Sheets that do not belong to their plan, which no script can bring about.

use super::super::job::{Edge, Job};
use super::super::network::{Network, Station};
use super::super::routes::Routes;
use super::super::search::fewest_hops;
use super::*;

/// A job of two tasks with an edge between them, both placed on one machine.
fn with_drawing(check: impl Fn(Drawing<'_>)) {
    let edge = Edge {
        from: 0,
        to: 1,
        volume: 1,
    };
    let job = Job::new(vec![4, 6], vec![edge]).expect("the job is within its limits");
    let network = Network::new(vec![Station::Machine { speed: 1 }], Vec::new())
        .expect("the network is within its limits");
    let routes = Routes::searched(&network, fewest_hops);
    let setting = Setting {
        job: &job,
        network: &network,
        routes: &routes,
    };
    let mut drawing = Drawing::new(setting, Form::Roll, 2);
    assert_eq!(drawing.place(0, 0), Ok(4));
    assert_eq!(drawing.place(1, 0), Ok(10));
    check(drawing);
}

#[test]
fn a_sheet_that_belongs() {
    with_drawing(|drawing| {
        let slip = drawing.slip().map(|slip| slip.to_string());
        assert_eq!(slip, Ok("lawful placed 2 of 2 length 10".to_owned()));
    });
}

#[test]
fn sheets_that_do_not_belong() {
    let spoils: [fn(&mut Drawing<'_>); 5] = [
        |drawing| drawing.counted = 1,
        |drawing| drawing.plan.steps = vec![0, 0],
        |drawing| drawing.plan.steps = vec![0, 7],
        |drawing| drawing.plan.tasks[0] = None,
        |drawing| {
            drawing.undo_step();
            drawing.plan.transfers[0].push(3);
        },
    ];
    for spoil in spoils {
        with_drawing(|mut drawing| {
            spoil(&mut drawing);
            assert_eq!(drawing.slip(), Err(Refusal::NotTogether));
            assert_eq!(drawing.place(1, 0), Err(Refusal::NotTogether));
            assert_eq!(drawing.take_back(), Err(Refusal::NotTogether));
        });
    }
}

/// Rules, and the timetable's bookings, are not looked at before a sheet is marked.
#[test]
fn a_sheet_that_belongs_and_is_out_of_order() {
    with_drawing(|mut drawing| {
        drawing.plan.tasks[1] = Some(Placement {
            station: 0,
            start: 2,
        });
        let slip = drawing.slip().map(|slip| slip.to_string());
        assert_eq!(slip, Ok("broken G 0 0".to_owned()));
        assert_eq!(drawing.fill(), Err(Refusal::NotTogether));
    });
}
