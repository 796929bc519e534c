//! What the documents say of their examples, and what no script can bring about.

use super::refusal::Refusal;
use super::session::follow;
use super::timetable::{Booking, Form, Timetable, MAX_BOOKINGS};
use crate::cases::Random;

/// The worked plan of docs/DRAWING.md, and fill from a blank plan.
#[test]
fn the_worked_plan() {
    let script = "task 4\ntask 6\ntask 3\nedge 0 1 4\nedge 0 2 6\n\
        machine 1\nmachine 2\nmachine 1\nlink 1 0 1\nlink 2 1 2\n\
        place 0 0\nplace 1 1\nplace 2 2\nshow\nback\nback\nback\nfill\n";
    let printed = "\
        job of 3 tasks and 2 edges, network of 3 stations and 2 links, routes by hops\n\
        place 0 0: finish 4\n\
        place 1 1: finish 11\n\
        place 2 2: finish 17\n\
        task 0 on machine 0 from 0 to 4\n\
        edge 0 on link 0 from 4 to 8\n\
        task 1 on machine 1 from 8 to 11\n\
        edge 1 on link 0 from 8 to 14\n\
        edge 1 on link 1 from 11 to 14\n\
        task 2 on machine 2 from 14 to 17\n\
        lawful placed 3 of 3 length 17\n\
        back: task 2\n\
        back: task 1\n\
        back: task 0\n\
        fill: length 7\n";
    assert_eq!(follow(script.as_bytes()).text, printed);
}

/// Each script of `examples/` says at its head what it prints.
#[test]
fn the_examples() {
    const SCRIPTS: [&str; 6] = [
        include_str!("../../../examples/bit_sheet.script"),
        include_str!("../../../examples/drawing.script"),
        include_str!("../../../examples/fewest_hops.script"),
        include_str!("../../../examples/largest.script"),
        include_str!("../../../examples/least_slow.script"),
        include_str!("../../../examples/one_machine.script"),
    ];
    for script in SCRIPTS {
        let printed: Vec<&str> = script
            .lines()
            .filter_map(|line| line.strip_prefix("#     "))
            .collect();
        assert!(!printed.is_empty());
        let text = follow(script.as_bytes()).text;
        assert_eq!(text.lines().collect::<Vec<_>>(), printed);
    }
}

/// Handed in on trial, blank, twice, and with an answer beside it that is not what is marked.
#[test]
fn handing_in() {
    let setting = "task 4\nmachine 1\nanswer\nrow 0 0 7\n";
    let printed = |calls: &str| {
        let script = [setting, calls].concat();
        let text = follow(script.as_bytes()).text;
        let lines: Vec<_> = text.lines().skip(1).map(str::to_owned).collect();
        lines.join("; ")
    };
    assert_eq!(
        printed("place 0 0\nhand in # now\nmark\nback\nkeep\nhand \t in\nfill\nplace 0 00\n"),
        "place 0 0: finish 4; lawful placed 1 of 1 length 4; lawful placed 1 of 1 length 11; \
         back: not allowed; keep: not allowed; hand in: not allowed; fill: not allowed; \
         place 0 00: not allowed"
    );
    assert_eq!(
        printed("try 0 0\nhand in\nstrike\nhand in\ntry 0 0\nstrike\nshow\n"),
        "try 0 0: finish 4; hand in: not allowed; strike: task 0; lawful placed 0 of 1 length 0; \
         try 0 0: not allowed; strike: not allowed; lawful placed 0 of 1 length 0"
    );
    assert_eq!(printed("hand\n"), "line 5 not understood");
    assert_eq!(printed("hand in in\n"), "line 5 not understood");
}

/// Of two timetables the later counts, and none is understood once the job was made.
#[test]
fn timetables() {
    let printed =
        |forms: &str| follow(format!("task 64\nmachine 1\n{forms}\nfill\n").as_bytes()).text;
    let made = "job of 1 tasks and 0 edges, network of 1 stations and 0 links, routes by hops\n";
    let fits = format!("{made}fill: length 64\n");
    let refused = format!("{made}fill: refused 19 0\n");
    let not_understood = "line 3 not understood\n";
    for forms in [
        "",
        "timetable roll",
        "timetable bits 1",
        "timetable bits 01024",
    ] {
        assert_eq!(printed(forms), fits, "{forms}");
    }
    assert_eq!(printed("timetable bits 0"), refused);
    assert_eq!(printed("timetable bits 1\ntimetable bits 0"), refused);
    assert_eq!(printed("timetable bits 0\ntimetable roll"), fits);
    for forms in [
        "timetable",
        "timetable bits",
        "timetable bits 1025",
        "timetable roll 1",
    ] {
        assert_eq!(printed(forms), not_understood, "{forms}");
    }
    assert_eq!(
        printed("answer\ntimetable roll"),
        format!("{made}line 4 not understood\n")
    );
}

#[test]
fn a_timetable_refuses() {
    let booking = Booking {
        resource: 5,
        start: 1_999_999_000,
        length: 1_000,
    };
    let mut table = Timetable::new(Form::Roll, 1);
    assert_eq!(table.take_back(), Err(Refusal::NothingToTakeBack));
    let late = Booking {
        length: 1_001,
        ..booking
    };
    assert_eq!(table.book(late), Err(Refusal::NotFree(5)));
    assert_eq!(table.book(booking), Ok(()));
    assert_eq!(table.earliest(5, 1_999_999_500, 1), None);
    assert_eq!(table.earliest(4, 1_999_999_999, 1), Some(1_999_999_999));
    assert_eq!(table.book(booking), Err(Refusal::NoRoom(1)));
    assert_eq!(table.take_back(), Ok(booking));
}

/// The least start at which each tick is free and before the horizon, looked for tick by tick.
fn earliest_by_ticks(table: &Timetable, horizon: u64, asked: Booking) -> Option<u32> {
    let has_tick = |booking: &Booking, tick| {
        booking.resource == asked.resource
            && (booking.start.into()..booking.finish()).contains(&tick)
    };
    let is_free = |tick| {
        !table
            .bookings()
            .iter()
            .any(|booking| has_tick(booking, tick))
    };
    let starts = u64::from(asked.start)..=horizon.checked_sub(asked.length.into())?;
    let mut starts = starts.filter(|&start| (start..start + u64::from(asked.length)).all(is_free));
    starts.next().map(|start| start as u32)
}

#[test]
fn a_bit_sheet_tick_by_tick() {
    for number in 0..200 {
        let mut random = Random::of_script(7, number);
        let words = random.below(4);
        let mut table = Timetable::new(Form::Bits { words }, MAX_BOOKINGS);
        let horizon = 64 * words as u64;
        for _ in 0..40 {
            let asked = Booking {
                resource: random.below(2),
                start: random.below(200) as u32,
                length: random.amount(70),
            };
            let start = table.earliest(asked.resource, asked.start.into(), asked.length);
            assert_eq!(start, earliest_by_ticks(&table, horizon, asked));
            let is_free = start == Some(asked.start);
            assert_eq!(table.book(asked).is_ok(), is_free);
            if let (Some(start), true) = (start, random.one_in(2)) {
                let _ = table.book(Booking { start, ..asked });
            }
            if random.one_in(6) {
                let _ = table.take_back();
            }
        }
    }
}
