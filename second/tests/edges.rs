//! The edges (a) to (l) of the document.

mod common;

use common::{answer, bytes_of, step_and_test, Register};
use second::{Entry, Refusal, Refused, Section, Speed, Station};
use Station::{A, B};

/// A's opener has reached B, which may now answer `asked` trains.
fn guest_at_b(asked: u8) -> Register {
    let mut register = Register::begun();
    register.accept(Entry::open(A, 10, 1, 1, asked));
    register.accept(Entry::receive(B, 70, A, 1));
    register
}

#[test]
fn edge_a_no_bytes_and_map_0() {
    let mut section = Section::fresh();
    assert_eq!(step_and_test(&mut section, &[]), Err(Refusal::Cut));
    assert_eq!(step_and_test(&mut section, &[0]), Err(Refusal::NoKind));
    assert_eq!(section.refused.of_none, 2);
}

#[test]
fn edge_b_asked_8_9_and_a_present_0() {
    let mut register = Register::begun();
    let mut bytes = bytes_of(&Entry::open(A, 0, 1, 1, 8));
    let asked = bytes.len() - 1;
    for wrong in [9, 0, 255] {
        bytes[asked] = wrong;
        let refused = step_and_test(&mut register.section, &bytes);
        assert_eq!(refused, Err(Refusal::FieldOutOfRange), "asked {wrong}");
    }
    register.accept(Entry::open(A, 0, 1, 1, 8));
    assert_eq!(register.section.vehicles()[0].asked, 8);
}

#[test]
fn edge_c_time_equal_to_the_clock_and_one_less() {
    let mut register = Register::begun();
    register.accept(Entry::open(A, 100, 1, 1, 1));
    register.refuse(9, Entry::receive(A, 99, A, 1));
    register.accept(Entry::receive(A, 100, A, 1));
    // B's clock has not moved and is not compared.
    register.accept(Entry::through(B, 0, 1));
}

#[test]
fn edge_d_a_follower_at_29_and_at_30_minutes() {
    let mut register = Register::begun();
    register.accept(Entry::through(A, 100, 1));
    register.refuse(19, Entry::through(A, 129, 1));
    register.accept(Entry::through(A, 130, 1));
}

#[test]
fn edge_e_the_twelfth_through_engine_and_the_thirteenth() {
    let mut register = Register::begun();
    for number in 0..12 {
        let accepted = register.accept(Entry::through(B, 30 * number, 1));
        assert_eq!(accepted, answer(number + 1, 1, Speed::Limit(15)));
    }
    register.refuse(17, Entry::through(B, 360, 1));
    assert_eq!(register.section.present, 12);
}

#[test]
fn edge_f_form_9999_and_the_next() {
    let mut register = Register::begun();
    for form in 1..=9_999 {
        let accepted = register.accept(Entry::open(A, 0, 1, 1, 1));
        assert_eq!(accepted.form, form);
        register.accept(Entry::receive(A, 0, A, form));
    }
    register.refuse(18, Entry::open(A, 0, 1, 1, 1));
    register.refuse(18, Entry::through(A, 0, 1));
    let accepted = register.accept(Entry::open(B, 0, 1, 1, 1));
    assert_eq!(accepted.form, 1);
}

#[test]
fn edge_g_granted_equal_to_asked_and_one_more() {
    let mut register = guest_at_b(3);
    register.refuse(16, Entry::send_back(B, 75, 0, 4));
    let accepted = register.accept(Entry::send_back(B, 75, 0, 3));
    assert_eq!(accepted, answer(1, 180, Speed::Booked));
    assert_eq!(register.section.desk(B).owes, 3);
}

#[test]
fn edge_h_openers_met_towards_b() {
    let mut register = Register::begun();
    register.accept(Entry::open(A, 0, 1, 1, 1));
    register.accept(Entry::open(B, 0, 1, 1, 1));
    register.accept(Entry::meet(B, A, 1));
    register.refuse(21, Entry::receive(A, 40, A, 1));
    register.refuse(20, Entry::receive(B, 40, A, 1));
    register.accept(Entry::receive(B, 40, B, 1));
    register.accept(Entry::receive(B, 40, A, 1));
    assert_eq!(register.section.desk(B).guest, 1);
}

#[test]
fn edge_i_resume_though_a_clear_is_owed() {
    let mut register = guest_at_b(2);
    register.accept(Entry::send_back(B, 75, 0, 2));
    register.refuse(8, Entry::resume());
    register.accept(Entry::receive(A, 95, B, 1));
    assert_eq!(register.section.desk(B).owes, 2);
    register.accept(Entry::resume());
    let expected = Section {
        // The RESUME that came too early.
        refused: Refused {
            of_none: 1,
            ..Refused::default()
        },
        ..Section::fresh()
    };
    assert_eq!(register.section, expected);
}

#[test]
fn edge_j_open_in_view_3() {
    let mut register = Register::begun();
    let accepted = register.accept(Entry::open(A, 0, 3, 4, 1));
    assert_eq!(accepted, answer(1, 7, Speed::Walking));
}

#[test]
fn edge_k_return_with_no_guest() {
    let mut register = Register::begun();
    register.refuse(14, Entry::send_back(A, 0, 0, 0));
    register.refuse(14, Entry::send_back(B, 0, 0, 1));
}

#[test]
fn edge_l_own_opener_taken_back() {
    let mut register = Register::begun();
    register.accept(Entry::open(A, 20, 1, 3, 1));
    register.refuse(10, Entry::open(A, 50, 1, 3, 1));
    register.accept(Entry::receive(A, 25, A, 1));
    let accepted = register.accept(Entry::open(A, 25, 1, 3, 1));
    // The papers of the first are cancelled, its number is not used again.
    assert_eq!(accepted, answer(2, 7, Speed::Limit(15)));
    assert_eq!(register.section.desk(A).sent, 1);
}
