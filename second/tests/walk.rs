//! The claims about lists of steps, on a share of the walks, and steps with a
//! known slip, which a walk has to catch.

use std::process::{Command, Output};

use second::walk::{walk, walk_with, Stepper};
use second::{
    decode, step_by, step_in_place, Accepted, Answer, Desk, Edition, Kind, Refusal, Section, Speed,
    Station, Vehicle,
};

#[test]
fn the_claims_hold_on_a_share_of_the_walks() {
    for seed in 0..3 {
        let tally = walk(seed, 4_000).unwrap_or_else(|failure| panic!("{failure}"));
        assert_eq!(tally.states, 4_000);
        assert!(tally.opposed_pairs > 10_000, "{tally}");
        assert!(tally.owing_states > 500, "{tally}");
        assert!(tally.waiting_states > 100, "{tally}");
        assert!(tally.given_up_states > 40, "{tally}");
        assert!(tally.swaps > 300, "{tally}");
        assert!(tally.last_train_swaps > 10, "{tally}");
        assert!(tally.rerun > 10 * tally.swaps, "{tally}");
        assert!(tally.compared_states > 1_000, "{tally}");
        assert!(tally.compared_lists > 3, "{tally}");
        assert!(tally.guest_states > 40, "{tally}");
        assert!(tally.returns_once_11 > 10, "{tally}");
        assert_eq!(tally.most_vehicles, 24, "{tally}");
    }
}

/// A step with a slip: after it, `slip` gets the section, the kind of the
/// accepted entry and its station.
fn walk_with_slip(slip: impl Fn(&mut Section, Kind, Station)) -> String {
    let stepper = |section: &mut Section, bytes: &[u8]| -> Answer {
        let answer = step_in_place(section, bytes);
        if let (Ok(entry), Ok(_)) = (decode(bytes), answer) {
            let kind = Kind::from_number(entry.kind).unwrap();
            if let Some(station) = Station::from_number(entry.station) {
                slip(section, kind, station);
            }
        }
        answer
    };
    walk_that_fails(&stepper)
}

/// What a walk says of a step with a slip.
fn walk_that_fails(stepper: &impl Stepper) -> String {
    let outcome = walk_with(stepper, 1, 20_000);
    outcome.expect_err("the slip is to be caught").0
}

/// A step with a slip about trains endorsed as the last: after one has left,
/// `departed` gets the section, its station and what was held before; after one is
/// in, `received` gets the desk and what it owed before.
fn walk_with_last_trains(
    departed: impl Fn(&mut Section, Station, u8),
    received: impl Fn(&mut Desk, u8),
) -> String {
    walk_that_fails(&|section: &mut Section, bytes: &[u8]| -> Answer {
        let before = section.clone();
        let answer = step_in_place(section, bytes)?;
        let Ok(entry) = decode(bytes) else {
            return Ok(answer);
        };
        let Some(station) = Station::from_number(entry.station) else {
            return Ok(answer);
        };
        let desk = before.desk(station);
        let nearest = before.nearest(station).and_then(|vehicle| vehicle.left_on);
        match (Kind::from_number(entry.kind), nearest) {
            (Some(Kind::LastTrain), _) => departed(section, station, desk.holds),
            (Some(Kind::Receive), Some(Kind::LastTrain)) => {
                received(section.desk_mut(station), desk.owes);
            }
            _ => {}
        }
        Ok(answer)
    })
}

/// The train that has just left this station.
fn train_leaving(section: &mut Section, station: Station) -> &mut Vehicle {
    match station {
        Station::A => &mut section.places[0],
        Station::B => &mut section.places[section.present - 1],
    }
}

#[track_caller]
fn is_caught_as(message: &str, claim: &str) {
    let first_line = message.lines().next().unwrap();
    assert!(first_line.contains(claim), "{first_line}");
}

#[test]
fn a_step_without_a_slip_passes() {
    let stepper = |section: &mut Section, bytes: &[u8]| step_in_place(section, bytes);
    assert!(walk_with(&stepper, 1, 1_000).is_ok());
}

#[test]
fn one_clock_for_two_stations_is_caught() {
    let message = walk_with_slip(|section, _, station| {
        let clock = section.desk(station).clock;
        let other = section.desk_mut(station.other());
        other.clock = other.clock.max(clock);
    });
    is_caught_as(&message, "swapped");
}

#[test]
fn one_book_of_forms_for_two_stations_is_caught() {
    let message = walk_with_slip(|section, _, station| {
        let last_form = section.desk(station).last_form;
        let other = section.desk_mut(station.other());
        other.last_form = other.last_form.max(last_form);
    });
    is_caught_as(&message, "swapped: an answer differs");
}

#[test]
fn an_enquiry_taken_for_a_line_clear_is_caught() {
    let message = walk_with_slip(|section, kind, station| {
        let desk = section.desk_mut(station);
        if kind == Kind::Receive && desk.guest > 0 {
            desk.holds = desk.asked;
        }
    });
    is_caught_as(&message, "owes");
}

#[test]
fn a_second_vehicle_behind_the_opener_is_caught() {
    let message = walk_with_slip(|section, kind, station| {
        if kind == Kind::Open {
            section.desk_mut(station).out = false;
        }
    });
    is_caught_as(&message, "opposed");
}

#[test]
fn a_return_that_clears_more_than_the_reply_named_is_caught() {
    let message = walk_with_slip(|section, kind, station| {
        let desk = section.desk_mut(station);
        if kind == Kind::Receive && (1..8).contains(&desk.holds) {
            desk.holds += 1;
        }
    });
    is_caught_as(&message, "owes");
}

#[test]
fn a_figure_that_remembers_the_order_is_caught() {
    // Who acted last is written where nothing else looks at it: the interval
    // of the other station stops.
    let message = walk_with_slip(|section, _, station| {
        section.desk_mut(station.other()).interval = None;
    });
    is_caught_as(&message, "swapped");
}

#[test]
fn a_meeting_counted_for_its_station_is_caught() {
    let stepper = |section: &mut Section, bytes: &[u8]| -> Answer {
        let mut refused = section.refused;
        let answer = step_in_place(section, bytes);
        if let (Ok(entry), Err(_)) = (decode(bytes), answer) {
            refused.count(Station::from_number(entry.station));
            section.refused = refused;
        }
        answer
    };
    let message = walk_with(&stepper, 1, 20_000).expect_err("the slip is to be caught");
    is_caught_as(&message.0, "counted");
}

#[test]
fn a_grant_added_to_what_waits_is_caught() {
    let message = walk_with_slip(|section, kind, station| {
        let desk = section.desk_mut(station);
        if kind == Kind::Receive && desk.waiting > 0 {
            desk.waiting = (desk.waiting + 1).min(8);
        }
    });
    is_caught_as(&message, "owes");
}

#[test]
fn a_last_train_that_lowers_holds_by_1_is_caught() {
    let message = walk_with_last_trains(
        |section, station, held| section.desk_mut(station).holds = held - 1,
        |_, _| {},
    );
    is_caught_as(&message, "owes");
}

#[test]
fn a_last_train_whose_receipt_lowers_owes_by_1_is_caught() {
    let message = walk_with_last_trains(
        |_, _, _| {},
        |desk, owed| desk.owes = owed.saturating_sub(1),
    );
    is_caught_as(&message, "owes");
}

/// One more than is given up. Of eight held it is no figure at all, so the walk
/// stops at the sum or at what is well made.
#[test]
fn a_last_train_that_gives_up_its_own_line_clear_is_caught() {
    let message = walk_with_last_trains(
        |section, station, held| train_leaving(section, station).given_up = held.min(7),
        |_, _| {},
    );
    is_caught_as(&message, "owes");
    let message = walk_with_last_trains(
        |section, station, held| train_leaving(section, station).given_up = held,
        |_, _| {},
    );
    let first_line = message.lines().next().unwrap();
    assert!(first_line.contains("owes") || first_line.contains("not well made"));
}

#[test]
fn a_last_train_that_carries_nothing_given_up_is_caught() {
    let message = walk_with_last_trains(
        |section, station, _| train_leaving(section, station).given_up = 0,
        |_, _| {},
    );
    is_caught_as(&message, "owes");
}

/// A last train whose record is that of a through engine, as if it were no train.
/// The walk counts it by the list; its receipt then leaves owed what is in.
#[test]
fn a_last_train_that_is_no_train_is_caught() {
    let message = walk_with_last_trains(
        |section, station, _| {
            let train = train_leaving(section, station);
            *train = Vehicle {
                left_on: Some(Kind::Through),
                class: 1,
                asked: 0,
                granted: 0,
                given_up: 0,
                ..*train
            };
        },
        |_, _| {},
    );
    is_caught_as(&message, "owes");
}

/// Its own last train comes in again, as a through engine may.
#[test]
fn a_last_train_taken_back_is_caught() {
    let message = walk_that_fails(&|section: &mut Section, bytes: &[u8]| -> Answer {
        let mut as_engine = section.clone();
        let answer = step_in_place(section, bytes);
        let (Ok(entry), Err(Refusal::MayNotEnter)) = (decode(bytes), answer) else {
            return answer;
        };
        let station = Station::from_number(entry.station).unwrap();
        let own = train_leaving(&mut as_engine, station);
        if own.left_on != Some(Kind::LastTrain) || entry.sender != entry.station {
            return answer;
        }
        (own.left_on, own.class, own.given_up) = (Some(Kind::Through), 1, 0);
        (own.asked, own.granted) = (0, 0);
        *section = as_engine;
        step_in_place(section, bytes)
    });
    is_caught_as(&message, "owes");
}

/// As where the table of kinds is one row too long.
#[test]
fn kind_10_taken_as_9_is_caught() {
    let message = walk_that_fails(&|section: &mut Section, bytes: &[u8]| -> Answer {
        let mut bytes = bytes.to_vec();
        if let [map, kind @ 10, ..] = &mut bytes[..] {
            if *map & 1 != 0 {
                *kind = 9;
            }
        }
        step_in_place(section, &bytes)
    });
    is_caught_as(&message, "counted");
}

#[test]
fn a_guest_of_another_class_than_before_is_caught() {
    // Demand 3 does not speak of classes.
    let message = walk_with_slip(|section, _, station| {
        let desk = section.desk_mut(station);
        desk.guest = desk.guest.min(4);
    });
    is_caught_as(&message, "not as before");
}

/// A step that answers with the speed that `slip` makes of the right one.
fn walk_with_speeds(slip: impl Fn(Speed) -> Speed) -> String {
    walk_that_fails(&|section: &mut Section, bytes: &[u8]| -> Answer {
        let answer = step_in_place(section, bytes)?;
        let speed = slip(answer.speed);
        Ok(Accepted { speed, ..answer })
    })
}

#[test]
fn another_speed_than_before_is_caught() {
    let message = walk_with_speeds(|speed| match speed {
        Speed::Two { straight: 25, .. } => Speed::Booked,
        speed => speed,
    });
    is_caught_as(&message, "not as before");
}

#[test]
fn a_follower_without_its_second_figure_is_caught() {
    for figure in [25, 10] {
        let message = walk_with_speeds(|speed| match speed {
            Speed::Two { straight, .. } if straight == figure => Speed::Limit(straight),
            speed => speed,
        });
        is_caught_as(&message, "not as before");
    }
}

#[test]
fn a_follower_with_its_figures_in_the_other_order_is_caught() {
    let message = walk_with_speeds(|speed| match speed {
        Speed::Two {
            straight,
            elsewhere,
        } => Speed::Two {
            straight: elsewhere,
            elsewhere: straight,
        },
        speed => speed,
    });
    is_caught_as(&message, "not as before");
}

#[test]
fn two_figures_on_a_booked_departure_are_caught() {
    let message = walk_with_speeds(|speed| match speed {
        Speed::Booked => Speed::Two {
            straight: 25,
            elsewhere: 10,
        },
        speed => speed,
    });
    is_caught_as(&message, "not as before");
}

/// Two figures are not 15 km/h or less, so it is an opposed pair that shows it.
#[test]
fn two_figures_on_an_opener_are_caught() {
    let message = walk_with_speeds(|speed| match speed {
        Speed::Limit(10) => Speed::Two {
            straight: 10,
            elsewhere: 10,
        },
        speed => speed,
    });
    is_caught_as(&message, "opposed");
}

/// It holds all that demand 3 and T-02 claim, so nothing else shows it.
#[test]
fn a_return_that_still_reads_11_is_caught() {
    let message = walk_that_fails(&|section: &mut Section, bytes: &[u8]| -> Answer {
        step_by(Edition::BeforeT08, section, bytes)
    });
    is_caught_as(&message, "not as by the step before T-08");
}

/// A RETURN without a guest is to read 14, OPEN and THROUGH are to read 11 still.
#[test]
fn another_refusal_in_place_of_14_or_11_is_caught() {
    for (right, wrong) in [
        (Refusal::NoGuest, Refusal::NoLineClear),
        (Refusal::HoldsLineClear, Refusal::NoGuest),
    ] {
        let message = walk_that_fails(&|section: &mut Section, bytes: &[u8]| -> Answer {
            match step_in_place(section, bytes) {
                Err(refusal) if refusal == right => Err(wrong),
                answer => answer,
            }
        });
        is_caught_as(&message, "not as by the step before T-08");
    }
}

/// A guest is shown, and never looked at, where a desk holds and owes line clears at
/// once. By document 01 none does, so what was once accepted throughout does not show
/// it, and no other claim speaks of guests.
#[test]
fn a_guest_at_a_desk_that_holds_and_owes_is_caught() {
    let show = |section: &mut Section, guest| {
        for desk in &mut section.desks {
            if desk.holds > 0 && desk.owes > 0 {
                desk.guest = guest;
            }
        }
    };
    let message = walk_that_fails(&|section: &mut Section, bytes: &[u8]| -> Answer {
        show(section, 0);
        let answer = step_in_place(section, bytes);
        show(section, 1);
        answer
    });
    is_caught_as(&message, "a guest stands where line clears are");
}

#[test]
fn an_ill_made_section_is_caught() {
    let message = walk_with_slip(|section, _, station| {
        section.desk_mut(station).sent += 1;
    });
    is_caught_as(&message, "not well made");
}

fn run_walk(arguments: &[&str]) -> Output {
    Command::new(env!("CARGO_BIN_EXE_walk"))
        .args(arguments)
        .output()
        .expect("the walk runs")
}

#[test]
fn the_program_prints_what_it_tried() {
    let output = run_walk(&["5", "1000"]);
    assert!(output.status.success());
    let expected = format!("{}\n", walk(5, 1_000).unwrap());
    assert_eq!(String::from_utf8(output.stdout).unwrap(), expected);
    assert!(expected.contains(" states 1000, "));
}

#[test]
fn a_bad_call_gives_one_line_of_usage() {
    let bad_calls: [&[&str]; 6] = [
        &[],
        &["1"],
        &["1", "x"],
        &["1", "2", "3"],
        &["--double", "1", "2"],
        &["1", "2", "--double", "--double"],
    ];
    for arguments in bad_calls {
        let output = run_walk(arguments);
        assert!(!output.status.success(), "{arguments:?}");
        assert_eq!(output.stdout, b"");
        assert_eq!(output.stderr, b"usage: walk SEED STEPS [--double]\n");
    }
}
