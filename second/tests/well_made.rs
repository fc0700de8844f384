//! Each clause of the well-made section, kept and broken.

use second::{step, Desk, Kind, Refusal, Refused, Section, Station, Vehicle};
use Station::{A, B};

const BEGIN: [u8; 2] = [1, 1];

/// What a vehicle may have left on, in the order in which they stand in
/// [`crowded`].
const KINDS: [Kind; 5] = [
    Kind::Open,
    Kind::Through,
    Kind::Return,
    Kind::Train,
    Kind::LastTrain,
];

fn vehicle(kind: Kind, sender: Station, form: u16) -> Vehicle {
    Vehicle {
        left_on: Some(kind),
        sender: sender.number(),
        form,
        heading: sender.other().number(),
        met: false,
        class: match kind {
            Kind::Train | Kind::LastTrain => 0,
            Kind::Through => 1,
            _ => 5,
        },
        asked: u8::from(kind == Kind::Open) * 8,
        granted: 0,
        given_up: u8::from(kind == Kind::LastTrain) * 7,
    }
}

fn with_vehicles(vehicles: &[Vehicle]) -> Section {
    let mut section = Section {
        in_force: true,
        present: vehicles.len(),
        ..Section::fresh()
    };
    section.places[..vehicles.len()].copy_from_slice(vehicles);
    for station in Station::BOTH {
        *section.desk_mut(station) = Desk {
            clock: 500,
            last_form: 9_999,
            sent: 12,
            interval: Some(500),
            out: true,
            guest: 5,
            asked: 8,
            holds: 8,
            owes: 8,
            waiting: 8,
        };
    }
    section
}

/// One vehicle of each kind from either station, each figure at its largest.
fn crowded() -> Section {
    let of = |sender| {
        KINDS
            .iter()
            .zip([1, 9_999, 3, 2, 4])
            .map(move |(&kind, form)| vehicle(kind, sender, form))
    };
    let vehicles: Vec<Vehicle> = of(A).chain(of(B)).collect();
    with_vehicles(&vehicles)
}

#[track_caller]
fn is_well_made(section: &Section) {
    assert!(section.is_well_made());
    let (answer, _) = step(section, &BEGIN);
    assert_ne!(answer, Err(Refusal::IllMade));
}

#[track_caller]
fn is_ill_made(section: &Section) {
    assert!(!section.is_well_made());
    assert_eq!(
        step(section, &BEGIN),
        (Err(Refusal::IllMade), section.clone())
    );
}

#[track_caller]
fn alter(kept: bool, change: impl Fn(&mut Section)) {
    let mut section = crowded();
    change(&mut section);
    if kept {
        is_well_made(&section);
    } else {
        is_ill_made(&section);
    }
}

#[test]
fn every_figure_at_its_largest_is_well_made() {
    is_well_made(&crowded());
}

#[test]
fn desk_figures_keep_their_ranges() {
    for place in [0, 1] {
        alter(false, |section| section.desks[place].last_form = 10_000);
        alter(false, |section| section.desks[place].sent = 13);
        alter(false, |section| section.desks[place].guest = 6);
        alter(false, |section| section.desks[place].asked = 9);
        alter(false, |section| section.desks[place].holds = 9);
        alter(false, |section| section.desks[place].owes = 9);
        alter(false, |section| section.desks[place].owes = u8::MAX);
        alter(false, |section| section.desks[place].waiting = 9);
        alter(false, |section| section.desks[place].waiting = u8::MAX);
    }
}

/// From the fresh section on, clears wait only while the station owes and holds
/// none, but the document does not ask for it.
#[test]
fn line_clears_may_wait_whatever_else_the_desk_has() {
    for place in [0, 1] {
        for waiting in 0..=8 {
            for (holds, owes) in [(0, 0), (8, 0), (0, 8), (8, 8)] {
                alter(true, |section| {
                    let desk = &mut section.desks[place];
                    (desk.holds, desk.owes, desk.waiting) = (holds, owes, waiting);
                });
            }
        }
    }
}

#[test]
fn a_running_interval_is_not_later_than_its_own_clock() {
    for place in [0, 1] {
        alter(false, |section| section.desks[place].interval = Some(501));
        alter(false, |section| section.desks[place].clock = 499);
        alter(true, |section| section.desks[place].interval = Some(499));
        alter(true, |section| {
            section.desks[place].clock = 0;
            section.desks[place].interval = None;
        });
    }
}

#[test]
fn sent_is_at_least_the_vehicles_present() {
    for place in [0, 1] {
        alter(true, |section| section.desks[place].sent = 5);
        alter(false, |section| section.desks[place].sent = 4);
    }
}

#[test]
fn vehicles_of_a_stand_nearer_a() {
    let from_a = vehicle(Kind::Through, A, 1);
    let from_b = vehicle(Kind::Through, B, 1);
    is_well_made(&with_vehicles(&[from_a, from_b]));
    is_ill_made(&with_vehicles(&[from_b, from_a]));
    let later = Vehicle { form: 2, ..from_b };
    is_ill_made(&with_vehicles(&[from_b, from_a, later]));
}

#[test]
fn form_numbers_are_given_out_and_differ() {
    alter(false, |section| section.places[0].form = 0);
    alter(false, |section| section.desks[0].last_form = 9_998);
    alter(false, |section| section.desks[1].last_form = 9_998);
    // The same number twice from one station, neighbours or not.
    alter(false, |section| section.places[0].form = 9_999);
    alter(false, |section| section.places[3].form = 1);
    alter(false, |section| section.places[8].form = 1);
    // In no order, and the same numbers from the other station.
    alter(true, |section| section.places[0].form = 5_000);
}

#[test]
fn unmet_vehicles_head_away_from_their_sender() {
    for place in 0..10 {
        let without_line_clear = place % 5 < 2;
        let own = if place < 5 { 1 } else { 2 };
        alter(false, |section| section.places[place].heading = own);
        for wrong in [0, 3, u8::MAX] {
            alter(false, |section| section.places[place].heading = wrong);
            alter(false, |section| {
                section.places[place].met = true;
                section.places[place].heading = wrong;
            });
        }
        // Only an opener or a through engine meets another.
        alter(without_line_clear, |section| {
            section.places[place].met = true;
        });
        alter(without_line_clear, |section| {
            section.places[place].met = true;
            section.places[place].heading = own;
        });
    }
}

#[test]
fn classes_fit_what_a_vehicle_left_on() {
    for class in 0..=6 {
        let one_to_five = (1..=5).contains(&class);
        alter(one_to_five, |section| section.places[0].class = class);
        alter(class == 1, |section| section.places[1].class = class);
        alter(one_to_five, |section| section.places[2].class = class);
        alter(class == 0, |section| section.places[3].class = class);
        alter(class == 0, |section| section.places[4].class = class);
    }
}

#[test]
fn messages_fit_what_a_vehicle_left_on() {
    for figure in 0..=9 {
        let in_range = figure <= 8;
        let one_to_eight = in_range && figure > 0;
        alter(one_to_eight, |section| section.places[0].asked = figure);
        alter(figure == 0, |section| section.places[0].granted = figure);
        alter(figure == 0, |section| section.places[1].asked = figure);
        alter(figure == 0, |section| section.places[1].granted = figure);
        for place in [2, 3, 4] {
            alter(in_range, |section| section.places[place].asked = figure);
            alter(in_range, |section| section.places[place].granted = figure);
        }
    }
}

#[test]
fn only_a_last_train_has_line_clears_given_up() {
    for place in 0..10 {
        for figure in 0..=9 {
            let most = if place % 5 == 4 { 7 } else { 0 };
            alter(figure <= most, |section| {
                section.places[place].given_up = figure;
            });
        }
        alter(false, |section| section.places[place].given_up = u8::MAX);
    }
    // A last train with none given up differs from a TRAIN by its kind alone.
    for given_up in [0, 1] {
        alter(given_up == 0, |section| {
            section.places[4].left_on = Some(Kind::Train);
            section.places[4].given_up = given_up;
        });
    }
}

#[test]
fn a_vehicle_has_a_sender_and_left_on_a_departure() {
    for place in [0, 9] {
        for wrong in [0, 3, u8::MAX] {
            alter(false, |section| section.places[place].sender = wrong);
        }
    }
    alter(false, |section| section.places[9].left_on = None);
    for kind in [Kind::Begin, Kind::Receive, Kind::Meet, Kind::Resume] {
        alter(false, |section| section.places[9].left_on = Some(kind));
    }
}

#[test]
fn unused_places_are_zero() {
    alter(false, |section| section.places[10].form = 1);
    alter(false, |section| section.places[10].given_up = 1);
    alter(false, |section| section.places[23].given_up = 7);
    alter(false, |section| section.places[23].met = true);
    alter(false, |section| section.present = 9);
    alter(false, |section| section.present = 11);
    alter(false, |section| section.present = 25);
}

#[test]
fn twelve_vehicles_from_each_station_are_well_made() {
    let from = |sender| (1..=12).map(move |form| vehicle(Kind::Through, sender, form));
    let vehicles: Vec<Vehicle> = from(A).chain(from(B)).collect();
    is_well_made(&with_vehicles(&vehicles));
    let thirteen: Vec<Vehicle> = (1..=13)
        .map(|form| vehicle(Kind::Through, A, form))
        .collect();
    is_ill_made(&with_vehicles(&thirteen));
}

#[test]
fn not_in_force_all_but_the_counts_is_fresh() {
    let fresh = Section {
        refused: Refused {
            for_a: 77,
            for_b: u32::MAX,
            of_none: 1,
        },
        ..Section::fresh()
    };
    is_well_made(&fresh);
    let alterations: [fn(&mut Section); 10] = [
        |section| section.desks[0].clock = 1,
        |section| section.desks[1].last_form = 1,
        |section| section.desks[0].interval = Some(0),
        |section| section.desks[1].out = true,
        |section| section.desks[0].owes = 1,
        |section| section.desks[0].waiting = 1,
        |section| section.desks[1].waiting = 1,
        |section| section.places[23].granted = 1,
        |section| section.places[0].given_up = 1,
        |section| section.present = 1,
    ];
    for alteration in alterations {
        let mut section = fresh.clone();
        alteration(&mut section);
        is_ill_made(&section);
    }
    alter(false, |section| section.in_force = false);
}
