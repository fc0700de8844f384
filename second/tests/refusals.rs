//! Every refusal, its place in the order, and what it leaves unaltered.

mod common;

use std::collections::BTreeSet;

use common::{bytes_of, step_and_test, Register};
use second::generator::{any_section, Generator, Options};
use second::random::Random;
use second::{encode, Entry, Kind, Refusal, Refused, Station, Writer};
use Station::{A, B};

#[track_caller]
fn refuse_bytes(register: &mut Register, number: u8, bytes: &[u8]) {
    let answer = step_and_test(&mut register.section, bytes);
    assert_eq!(answer.map_err(Refusal::number), Err(number), "{bytes:?}");
}

/// A's opener stands at B.
fn guest_at_b() -> Register {
    let mut register = Register::begun();
    register.accept(Entry::open(A, 10, 1, 2, 4));
    register.accept(Entry::receive(B, 70, A, 1));
    register
}

/// A holds two line clears that B owes, and has B's enquiry for three.
fn a_holds_two() -> Register {
    let mut register = guest_at_b();
    register.accept(Entry::send_back(B, 75, 3, 2));
    register.accept(Entry::receive(A, 95, B, 1));
    register
}

#[test]
fn refusals_1_to_4_of_bytes_in_and_out_of_force() {
    for mut register in [Register::fresh(), Register::begun(), a_holds_two()] {
        refuse_bytes(&mut register, 1, &[]);
        refuse_bytes(&mut register, 1, &[0x3F, 2, 1, 0, 10, 1, 1]);
        refuse_bytes(&mut register, 1, &[0xFF]);
        refuse_bytes(&mut register, 2, &[0x00]);
        refuse_bytes(&mut register, 2, &[0x01, 0]);
        refuse_bytes(&mut register, 2, &[0x01, 10]);
        refuse_bytes(&mut register, 2, &[0x01, 255]);
        refuse_bytes(&mut register, 2, &[0x02, 1]);
        refuse_bytes(&mut register, 3, &[0x01, 2]);
        refuse_bytes(&mut register, 3, &[0x03, 8, 1]);
        refuse_bytes(&mut register, 3, &[0x01, 9]);
        refuse_bytes(&mut register, 3, &[0x7F, 2, 1, 0, 10, 1, 1, 1, 1]);
        refuse_bytes(&mut register, 4, &[0x07, 4, 0, 0, 10]);
        refuse_bytes(&mut register, 4, &[0x87, 6, 1, 0, 10, 1, 0x27, 0x10]);
    }
}

#[test]
fn refusals_6_7_and_8_of_the_declaration() {
    let mut register = Register::fresh();
    register.refuse(7, Entry::resume());
    register.refuse(7, Entry::open(A, 0, 1, 1, 1));
    register.refuse(7, Entry::through(A, 0, 1));
    register.refuse(7, Entry::send_back(B, 0, 0, 0));
    register.refuse(7, Entry::train(B, 0, 1, 0, 0));
    register.refuse(7, Entry::last_train(A, 0, 1, 0, 0));
    register.refuse(7, Entry::receive(A, 0, B, 1));
    register.refuse(7, Entry::meet(A, A, 1));
    register.accept(Entry::begin());
    register.refuse(6, Entry::begin());
    register.accept(Entry::through(A, 0, 1));
    register.refuse(6, Entry::begin());
    register.refuse(8, Entry::resume());
}

#[test]
fn refusal_9_comes_before_the_station_masters_others() {
    let mut register = guest_at_b();
    register.refuse(9, Entry::open(A, 9, 1, 1, 1));
    register.refuse(10, Entry::open(A, 10, 1, 1, 1));
    register.refuse(9, Entry::send_back(B, 69, 0, 8));
    register.refuse(9, Entry::receive(B, 69, A, 7));
    let mut register = a_holds_two();
    register.refuse(9, Entry::train(A, 94, 1, 0, 8));
    register.refuse(9, Entry::through(A, 94, 1));
}

#[test]
fn refusals_10_to_13_in_their_order() {
    // Out at A, which nothing else bars.
    let mut register = Register::begun();
    register.accept(Entry::open(A, 0, 1, 1, 1));
    register.refuse(10, Entry::open(A, 0, 1, 1, 1));
    register.refuse(10, Entry::through(A, 0, 1));
    // All four at once, then one after the other taken away.
    let desk = register.section.desk_mut(A);
    (desk.holds, desk.owes, desk.guest) = (1, 1, 1);
    for number in 10..=13 {
        register.refuse(number, Entry::open(A, 0, 1, 1, 1));
        register.refuse(number, Entry::through(A, 0, 1));
        let desk = register.section.desk_mut(A);
        match number {
            10 => desk.out = false,
            11 => desk.holds = 0,
            12 => desk.owes = 0,
            _ => desk.guest = 0,
        }
    }
    register.refuse(19, Entry::through(A, 0, 1));
}

#[test]
fn refusals_14_and_16_of_a_return() {
    let mut register = a_holds_two();
    // A return without a guest reads 14, with line clears held as well.
    register.refuse(14, Entry::send_back(A, 95, 0, 8));
    let mut register = Register::begun();
    register.refuse(14, Entry::send_back(A, 0, 0, 8));
    let mut register = guest_at_b();
    register.refuse(16, Entry::send_back(B, 70, 0, 5));
    register.section.desk_mut(B).sent = 12;
    register.refuse(16, Entry::send_back(B, 70, 0, 5));
    register.refuse(17, Entry::send_back(B, 70, 0, 4));
}

#[test]
fn refusals_15_and_16_of_a_train() {
    let mut register = guest_at_b();
    register.refuse(15, Entry::train(A, 95, 1, 0, 8));
    let mut register = a_holds_two();
    register.refuse(16, Entry::train(A, 95, 1, 0, 4));
    register.accept(Entry::train(A, 95, 1, 8, 0));
    register.refuse(16, Entry::train(A, 125, 1, 0, 4));
    register.accept(Entry::train(A, 125, 1, 0, 3));
    // By T-02 the first of the two may carry the grant; then none is left to give.
    let mut register = a_holds_two();
    register.accept(Entry::train(A, 95, 1, 8, 3));
    register.refuse(16, Entry::train(A, 125, 1, 0, 1));
    register.accept(Entry::train(A, 125, 1, 0, 0));
}

/// No log leads to a station that holds, owes and is asked at once, but a
/// section can be well made so.
#[test]
fn refusal_16_of_a_train_while_its_station_owes() {
    for owes in [1, 8] {
        for holds in [1, 2, 8] {
            let mut register = a_holds_two();
            let desk = register.section.desk_mut(A);
            (desk.holds, desk.owes) = (holds, owes);
            for granted in [1, 3, 4] {
                register.refuse(16, Entry::train(A, 95, 1, 8, granted));
            }
            register.section.desk_mut(A).sent = 12;
            register.refuse(16, Entry::train(A, 95, 1, 8, 1));
            register.section.desk_mut(A).sent = 0;
            register.accept(Entry::train(A, 95, 1, 8, 0));
        }
    }
}

#[test]
fn no_refusal_reads_what_waits() {
    let waits = |mut register: Register| {
        for station in Station::BOTH {
            register.section.desk_mut(station).waiting = 8;
        }
        register
    };
    let mut register = waits(Register::begun());
    register.refuse(15, Entry::train(A, 0, 1, 0, 0));
    register.refuse(14, Entry::send_back(A, 0, 0, 0));
    register.accept(Entry::open(A, 0, 1, 1, 1));
    register.accept(Entry::through(B, 0, 1));
    register.accept(Entry::meet(A, A, 1));
    let mut register = waits(guest_at_b());
    register.accept(Entry::send_back(B, 75, 0, 4));
    let mut register = waits(a_holds_two());
    register.accept(Entry::train(A, 95, 1, 0, 3));
    waits(Register::begun()).accept(Entry::resume());
}

#[test]
fn refusals_17_18_and_19_in_their_order() {
    let mut register = Register::begun();
    register.accept(Entry::through(B, 100, 1));
    let desk = register.section.desk_mut(B);
    (desk.sent, desk.last_form) = (12, 9_999);
    register.refuse(17, Entry::through(B, 100, 1));
    register.section.desk_mut(B).sent = 11;
    register.refuse(18, Entry::through(B, 100, 1));
    register.section.desk_mut(B).last_form = 9_998;
    register.refuse(19, Entry::through(B, 129, 1));
    let accepted = register.accept(Entry::through(B, 130, 1));
    assert_eq!(accepted.form, 9_999);
}

#[test]
fn the_interval_binds_every_kind_of_departure() {
    let mut register = a_holds_two();
    register.section.desk_mut(A).interval = Some(90);
    register.refuse(19, Entry::train(A, 119, 1, 0, 0));
    register.accept(Entry::train(A, 120, 1, 0, 0));
    let mut register = guest_at_b();
    register.section.desk_mut(B).interval = Some(60);
    register.refuse(19, Entry::send_back(B, 89, 0, 0));
    register.accept(Entry::send_back(B, 90, 0, 0));
}

#[test]
fn refusals_20_and_21_of_a_receipt() {
    let mut register = Register::begun();
    register.refuse(20, Entry::receive(A, 0, A, 1));
    register.accept(Entry::through(A, 0, 1));
    register.accept(Entry::through(A, 30, 1));
    // Nearest A is the second, nearest B the first.
    register.refuse(20, Entry::receive(A, 30, A, 1));
    register.refuse(20, Entry::receive(B, 30, A, 2));
    register.refuse(20, Entry::receive(B, 30, B, 1));
    register.accept(Entry::receive(B, 30, A, 1));

    // A train and a return are never taken back.
    let mut register = a_holds_two();
    register.accept(Entry::train(A, 95, 1, 0, 0));
    register.refuse(21, Entry::receive(A, 95, A, 2));
    let mut register = guest_at_b();
    register.accept(Entry::send_back(B, 75, 0, 0));
    register.refuse(21, Entry::receive(B, 75, B, 1));
}

#[test]
fn refusal_21_of_vehicles_that_met() {
    for towards in [A, B] {
        let mut register = Register::begun();
        register.accept(Entry::open(A, 0, 1, 1, 1));
        register.accept(Entry::open(B, 0, 1, 1, 1));
        register.accept(Entry::meet(towards, A, 1));
        let away = towards.other();
        // At the end they left, the own vehicle may not come back.
        register.refuse(21, Entry::receive(away, 0, away, 1));
        register.accept(Entry::receive(towards, 0, towards, 1));
        // The other's is now alone, but goes the other way.
        register.refuse(21, Entry::receive(away, 0, away, 1));
        register.accept(Entry::receive(towards, 0, away, 1));
    }
}

#[test]
fn refusal_21_of_a_vehicle_turned_away_from_the_receiving_station() {
    let mut register = Register::begun();
    register.accept(Entry::through(A, 0, 1));
    register.accept(Entry::through(B, 0, 1));
    register.accept(Entry::meet(B, A, 1));
    register.accept(Entry::receive(B, 0, B, 1));
    register.accept(Entry::through(B, 0, 1));
    register.accept(Entry::meet(A, A, 1));
    register.accept(Entry::receive(A, 0, A, 1));
    // B's second engine heads to A: not to be let in at B, though its own.
    register.refuse(21, Entry::receive(B, 0, B, 2));
    register.accept(Entry::through(A, 0, 1));
    register.accept(Entry::meet(B, A, 2));
    register.accept(Entry::receive(B, 0, B, 2));
    // A's second heads to B and has met: A may not have it back.
    register.refuse(21, Entry::receive(A, 0, A, 2));
    register.accept(Entry::receive(B, 0, A, 2));
}

#[test]
fn refusal_21_of_the_others_vehicle_on_its_way_home() {
    let mut register = Register::begun();
    register.accept(Entry::through(B, 0, 1));
    let vehicle = &mut register.section.places[0];
    (vehicle.met, vehicle.heading) = (true, 2);
    assert!(register.section.is_well_made());
    register.refuse(21, Entry::receive(A, 0, B, 1));
    register.accept(Entry::receive(B, 0, B, 1));
}

#[test]
fn refusal_22_of_a_meeting() {
    let mut register = Register::begun();
    register.refuse(22, Entry::meet(A, A, 1));
    register.accept(Entry::through(A, 0, 1));
    // No neighbour towards B.
    register.refuse(22, Entry::meet(A, A, 1));
    register.accept(Entry::through(A, 30, 1));
    // The neighbour heads the same way.
    register.refuse(22, Entry::meet(A, A, 2));
    register.accept(Entry::open(B, 0, 1, 1, 1));
    // Not present, the farther one of the pair, not neighbours.
    register.refuse(22, Entry::meet(A, A, 3));
    register.refuse(22, Entry::meet(A, B, 1));
    register.refuse(22, Entry::meet(A, A, 2));
    register.accept(Entry::meet(A, A, 1));
}

#[test]
fn refusal_22_of_vehicles_on_a_line_clear() {
    // No log leads to a train that faces another vehicle, but a section can be
    // well made with one.
    for kind in [Kind::Return, Kind::Train, Kind::LastTrain] {
        for place in [0, 1] {
            let mut register = Register::begun();
            register.accept(Entry::through(A, 0, 1));
            register.accept(Entry::through(B, 0, 1));
            let vehicle = &mut register.section.places[place];
            vehicle.left_on = Some(kind);
            vehicle.class = u8::from(kind == Kind::Return);
            assert!(register.section.is_well_made());
            register.refuse(22, Entry::meet(A, A, 1));
        }
    }
}

#[test]
fn refusal_5_comes_first_and_alters_nothing() {
    let mut ill_made = Register::begun().section;
    ill_made.desk_mut(A).sent = 13;
    let begin = bytes_of(&Entry::begin());
    for bytes in [&[][..], &[0], &[1, 9], &[1, 10], &[3, 1, 1], &begin] {
        let answer = step_and_test(&mut ill_made, bytes);
        assert_eq!(answer, Err(Refusal::IllMade));
    }
    assert_eq!(ill_made.refused, Refused::default());
}

#[test]
fn refusal_23_leaves_the_buffer_alone() {
    let entry = Entry::receive(A, 0x0102, B, 0x0304);
    for length in 0..8 {
        let mut buffer = vec![0xEE; length];
        let refused = encode(&entry, &mut buffer);
        assert_eq!(refused, Err(Refusal::BufferTooShort));
        assert_eq!(buffer, vec![0xEE; length]);
    }
    let mut buffer = [0xEE; 9];
    assert_eq!(encode(&entry, &mut buffer), Ok(8));
    assert_eq!(buffer, [0x87, 6, 1, 1, 2, 2, 3, 4, 0xEE]);

    let mut log = [0xEE; 10];
    let mut writer = Writer::at(&mut log, 3);
    assert_eq!(writer.append(&entry), Err(Refusal::BufferTooShort));
    assert_eq!(writer.position(), 3);
    assert_eq!(log, [0xEE; 10]);
}

#[test]
fn any_well_made_section_stays_well_made() {
    let mut random = Random::new(2026);
    let mut seen = BTreeSet::new();
    let mut accepted = BTreeSet::new();
    for _ in 0..4_000 {
        let mut section = any_section(&mut random);
        let mut generator = Generator::at(section.clone(), random.word(), Options::default());
        for _ in 0..5 {
            let bytes = generator.next_step();
            match step_and_test(&mut section, &bytes) {
                Ok(_) => accepted.insert(bytes[1]),
                Err(refusal) => seen.insert(refusal.number()),
            };
            assert!(section.is_well_made());
            assert_eq!(&section, generator.section());
        }
    }
    let expected: BTreeSet<u8> = (1..=22).filter(|&number| number != 5).collect();
    assert_eq!(seen, expected);
    assert_eq!(accepted, (1..=9).collect());
}
