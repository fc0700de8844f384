//! What each accepted entry alters, figure by figure.

mod common;

use common::{answer, two, Register};
use second::{Desk, Entry, Kind, Refused, Section, Speed, Station, Vehicle};
use Station::{A, B};

/// B has A's line clear enquiry and has answered with `granted` trains.
fn a_holds(granted: u8) -> Register {
    let mut register = Register::begun();
    register.accept(Entry::open(A, 10, 1, 5, 8));
    register.accept(Entry::receive(B, 70, A, 1));
    register.accept(Entry::send_back(B, 75, 0, granted));
    register.accept(Entry::receive(A, 95, B, 1));
    register
}

#[test]
fn begin_and_resume_keep_the_three_counts_and_nothing_else() {
    let mut register = Register::fresh();
    register.refuse(7, Entry::resume());
    register.refuse(7, Entry::meet(A, A, 1));
    register.refuse(7, Entry::train(B, 0, 1, 0, 0));
    register.refuse(7, Entry::open(A, 0, 1, 1, 1));
    register.refuse(7, Entry::receive(A, 0, B, 1));
    register.refuse(7, Entry::through(A, 0, 1));
    let refused = Refused {
        for_a: 3,
        for_b: 1,
        of_none: 2,
    };
    register.accept(Entry::begin());
    let begun = Section {
        in_force: true,
        refused,
        ..Section::fresh()
    };
    assert_eq!(register.section, begun);
    // A clock, a form number and a count of departures that do not stay.
    register.accept(Entry::through(A, 9, 1));
    register.accept(Entry::receive(B, 40, A, 1));
    register.accept(Entry::resume());
    let resumed = Section {
        refused,
        ..Section::fresh()
    };
    assert_eq!(register.section, resumed);
}

#[test]
fn an_opener_leaves() {
    let mut register = Register::begun();
    register.accept(Entry::open(B, 7, 2, 3, 6));
    let expected = Desk {
        clock: 7,
        last_form: 1,
        sent: 1,
        interval: Some(7),
        out: true,
        ..Desk::default()
    };
    assert_eq!(register.section.desk(B), &expected);
    assert_eq!(register.section.desk(A), &Desk::default());
    let vehicle = Vehicle {
        left_on: Some(Kind::Open),
        sender: 2,
        form: 1,
        heading: 1,
        met: false,
        class: 3,
        asked: 6,
        granted: 0,
        given_up: 0,
    };
    assert_eq!(register.section.vehicles(), [vehicle]);
}

#[test]
fn an_opener_arrives_as_a_guest() {
    let mut register = Register::begun();
    register.accept(Entry::open(B, 7, 2, 3, 6));
    register.accept(Entry::receive(A, 2, B, 1));
    let expected = Desk {
        clock: 2,
        guest: 3,
        asked: 6,
        ..Desk::default()
    };
    assert_eq!(register.section.desk(A), &expected);
    // Every figure that a receipt alters is the receiving station's.
    assert!(register.section.desk(B).out);
    assert_eq!(register.section.desk(B).sent, 1);
    assert_eq!(register.section.desk(B).interval, Some(7));
    assert_eq!(register.section.present, 0);
    register.refuse(13, Entry::open(A, 3, 1, 1, 1));
    register.refuse(13, Entry::through(A, 3, 1));
    register.refuse(10, Entry::open(B, 40, 1, 1, 1));
}

#[test]
fn a_return_carries_the_guest_and_both_messages() {
    let mut register = Register::begun();
    register.accept(Entry::open(A, 10, 1, 5, 8));
    register.accept(Entry::receive(B, 70, A, 1));
    let accepted = register.accept(Entry::send_back(B, 75, 4, 8));
    assert_eq!(accepted, answer(1, 16 + 32 + 128 + 2 + 4, Speed::Booked));
    let at_b = Desk {
        clock: 75,
        last_form: 1,
        sent: 1,
        interval: Some(75),
        owes: 8,
        ..Desk::default()
    };
    assert_eq!(register.section.desk(B), &at_b);
    let vehicle = register.section.vehicles()[0];
    assert_eq!((vehicle.class, vehicle.asked, vehicle.granted), (5, 4, 8));

    register.refuse(12, Entry::open(B, 200, 1, 1, 1));
    register.refuse(21, Entry::receive(B, 200, B, 1));
    register.accept(Entry::receive(A, 95, B, 1));
    let at_a = Desk {
        clock: 95,
        last_form: 1,
        asked: 4,
        holds: 8,
        ..Desk::default()
    };
    assert_eq!(register.section.desk(A), &at_a);
}

#[test]
fn a_return_without_messages_clears_the_enquiry() {
    let mut register = Register::begun();
    register.accept(Entry::open(A, 10, 1, 5, 8));
    register.accept(Entry::receive(B, 70, A, 1));
    let accepted = register.accept(Entry::send_back(B, 75, 0, 0));
    assert_eq!(accepted.forms, 16 + 32 + 128);
    assert_eq!(register.section.desk(B).asked, 0);
    assert_eq!(register.section.desk(B).owes, 0);
    register.accept(Entry::receive(A, 95, B, 1));
    assert_eq!(register.section.desk(A).holds, 0);
    assert!(!register.section.desk(A).out);
    register.refuse(15, Entry::train(A, 95, 1, 0, 0));
}

#[test]
fn a_series_of_trains_runs_booked_then_slower() {
    let mut register = a_holds(4);
    register.refuse(11, Entry::open(A, 95, 1, 1, 1));
    register.refuse(14, Entry::send_back(A, 95, 0, 0));
    let first = register.accept(Entry::train(A, 95, 3, 0, 0));
    assert_eq!(first, answer(2, 168, Speed::Booked));
    register.refuse(19, Entry::train(A, 124, 1, 0, 0));
    let second = register.accept(Entry::train(A, 125, 1, 0, 0));
    assert_eq!(second, answer(3, 104, two(25, 10)));
    let third = register.accept(Entry::train(A, 155, 2, 1, 0));
    assert_eq!(third, answer(4, 106, two(10, 10)));
    let fourth = register.accept(Entry::train(A, 185, 3, 0, 0));
    assert_eq!(fourth, answer(5, 104, two(10, 10)));
    register.refuse(15, Entry::train(A, 215, 1, 0, 0));
    assert_eq!(register.section.desk(B).owes, 4);
    for form in 2..=5 {
        register.accept(Entry::receive(B, 300, A, form));
        assert_eq!(register.section.desk(B).owes, 5 - form as u8);
    }
    assert_eq!(register.section.desk(B).asked, 1);
    assert_eq!(register.section.desk(B).sent, 0);
}

#[test]
fn the_last_train_carries_the_reply() {
    let mut register = Register::begun();
    register.accept(Entry::open(A, 10, 1, 5, 8));
    register.accept(Entry::receive(B, 70, A, 1));
    register.accept(Entry::send_back(B, 75, 5, 2));
    register.accept(Entry::receive(A, 95, B, 1));
    // By T-02 the first may carry it as well, but here it does not.
    register.accept(Entry::train(A, 95, 1, 0, 0));
    assert_eq!(register.section.desk(A).asked, 5);
    register.refuse(16, Entry::train(A, 125, 1, 0, 6));
    let last = register.accept(Entry::train(A, 125, 1, 3, 5));
    assert_eq!(last, answer(3, 8 + 32 + 64 + 2 + 4, two(25, 10)));
    let at_a = register.section.desk(A);
    assert_eq!((at_a.holds, at_a.asked, at_a.owes), (0, 0, 5));

    register.accept(Entry::receive(B, 150, A, 2));
    let at_b = register.section.desk(B);
    assert_eq!((at_b.holds, at_b.asked, at_b.owes), (0, 0, 1));
    register.accept(Entry::receive(B, 180, A, 3));
    let at_b = register.section.desk(B);
    assert_eq!((at_b.holds, at_b.asked, at_b.owes), (5, 3, 0));

    // The receipt stopped the interval and the count: booked again.
    let back = register.accept(Entry::train(B, 180, 2, 0, 0));
    assert_eq!(back, answer(2, 16 + 32 + 128, Speed::Booked));
}

#[test]
fn an_enquiry_left_unanswered_stands_until_it_is_answered() {
    let mut register = Register::begun();
    register.accept(Entry::open(A, 10, 1, 5, 8));
    register.accept(Entry::receive(B, 70, A, 1));
    register.accept(Entry::send_back(B, 75, 7, 1));
    register.accept(Entry::receive(A, 95, B, 1));
    // A's only train leaves without a reply; the enquiry for 7 stays.
    register.accept(Entry::train(A, 95, 1, 0, 0));
    assert_eq!(register.section.desk(A).asked, 7);
    register.accept(Entry::receive(B, 150, A, 2));
    // A through engine of B alters nothing of it.
    register.accept(Entry::through(B, 150, 1));
    register.accept(Entry::receive(A, 180, B, 2));
    assert_eq!(register.section.desk(A).asked, 7);
    // The next opener of B brings a new enquiry in its place.
    register.accept(Entry::open(B, 200, 1, 4, 2));
    register.accept(Entry::receive(A, 260, B, 3));
    assert_eq!(register.section.desk(A).asked, 2);
    assert_eq!(register.section.desk(A).guest, 4);
}

#[test]
fn a_through_engine_arrives_and_alters_only_count_and_interval() {
    let mut register = Register::begun();
    register.accept(Entry::through(B, 0, 1));
    register.accept(Entry::through(B, 30, 1));
    register.accept(Entry::receive(B, 30, B, 2));
    assert_eq!(register.section.desk(B).sent, 1);
    assert_eq!(register.section.desk(B).interval, None);
    register.accept(Entry::receive(A, 9, B, 1));
    let expected = Desk {
        clock: 9,
        ..Desk::default()
    };
    assert_eq!(register.section.desk(A), &expected);
    assert_eq!(register.section.desk(B).sent, 1);
}

#[test]
fn a_meeting_turns_both_and_alters_no_desk() {
    let mut register = Register::begun();
    register.accept(Entry::open(A, 5, 1, 1, 1));
    register.accept(Entry::through(B, 6, 1));
    let desks = register.section.desks;
    register.accept(Entry::meet(A, A, 1));
    assert_eq!(register.section.desks, desks);
    for vehicle in register.section.vehicles() {
        assert_eq!((vehicle.heading, vehicle.met), (1, true));
    }
    // They no longer head towards one another.
    register.refuse(22, Entry::meet(B, A, 1));
    register.refuse(21, Entry::receive(B, 6, B, 1));
    register.accept(Entry::receive(A, 5, A, 1));
    assert!(!register.section.desk(A).out);
    register.accept(Entry::receive(A, 5, B, 1));
    assert_eq!(register.section.desk(A).guest, 0);
}

#[test]
fn those_turned_back_may_meet_a_follower_of_their_own_station() {
    let mut register = Register::begun();
    register.accept(Entry::through(A, 0, 1));
    register.accept(Entry::through(A, 30, 1));
    register.accept(Entry::through(B, 0, 1));
    register.refuse(22, Entry::meet(A, A, 2));
    register.accept(Entry::meet(A, A, 1));
    register.accept(Entry::meet(B, A, 2));
    let headings: Vec<_> = register
        .section
        .vehicles()
        .iter()
        .map(|vehicle| (vehicle.form, vehicle.heading, vehicle.met))
        .collect();
    let expected = [(2, 2, true), (1, 2, true), (1, 1, true)];
    assert_eq!(headings, expected);
    // The two in the middle are opposed again and may meet again.
    register.accept(Entry::meet(B, A, 1));
    for sender_and_form in [(B, 1), (A, 1), (A, 2)] {
        let (sender, form) = sender_and_form;
        register.accept(Entry::receive(B, 90, sender, form));
    }
    register.accept(Entry::resume());
}

#[test]
fn a_train_after_the_opener_came_home_runs_booked() {
    let mut register = a_holds(1);
    // Sent became 0 when the opener came home on its RETURN.
    assert_eq!(register.section.desk(A).sent, 0);
    let accepted = register.accept(Entry::train(A, 95, 2, 0, 0));
    assert_eq!(accepted.speed, Speed::Booked);
    register.refuse(21, Entry::receive(A, 96, A, 2));
}

#[test]
fn a_receipt_between_a_return_and_a_train_makes_the_train_booked() {
    let mut register = Register::begun();
    // B's RETURN is still counted when B's first train leaves on a reply that
    // A's train brought: the receipt of that train sets the count to 0.
    register.accept(Entry::open(A, 0, 1, 1, 1));
    register.accept(Entry::receive(B, 0, A, 1));
    register.accept(Entry::send_back(B, 0, 1, 1));
    register.accept(Entry::receive(A, 0, B, 1));
    register.accept(Entry::train(A, 0, 1, 0, 1));
    assert_eq!(register.section.desk(B).sent, 1);
    register.accept(Entry::receive(B, 0, A, 2));
    let accepted = register.accept(Entry::train(B, 0, 1, 0, 0));
    assert_eq!(accepted, answer(2, 176, Speed::Booked));
}
