//! The stored cases: what is among them, some worked out by hand from the
//! document, and the program that writes them.

use std::collections::BTreeSet;
use std::process::{Command, Output};
use std::sync::LazyLock;

use second::cases::{all, expected, input, Case, LONGEST};
use second::figures::Figures;
use second::generator::{any_section, Generator, Options};
use second::random::Random;
use second::{Entry, Kind, Refusal, Section, Station, Vehicle};

static CASES: LazyLock<Vec<Case>> = LazyLock::new(all);

const SESSION: [&[u8]; 8] = [
    &[0x01, 0x01],
    &[0x3F, 0x02, 0x01, 0x00, 0x0A, 0x01, 0x01, 0x02],
    &[0x87, 0x06, 0x02, 0x00, 0x46, 0x01, 0x00, 0x01],
    &[0x47, 0x04, 0x02, 0x00, 0x4B, 0x02],
    &[0x87, 0x06, 0x01, 0x00, 0x5F, 0x02, 0x00, 0x01],
    &[0x0F, 0x05, 0x01, 0x00, 0x60, 0x01],
    &[0x0F, 0x05, 0x01, 0x00, 0x7D, 0x01],
    &[0x0F, 0x05, 0x01, 0x00, 0x7E, 0x01],
];

// Where the figures of a section start.
const PRESENT: usize = 24 * 10;
const IN_FORCE: usize = PRESENT + 1;
const FOR_A: usize = PRESENT + 2;
const FOR_B: usize = FOR_A + 4;
const OF_NONE: usize = FOR_B + 4;
const DESK_A: usize = OF_NONE + 4;
const DESK_B: usize = DESK_A + 14;

/// The figures of a section, of which all others are 0.
fn figures(runs: &[(usize, &[u8])]) -> Figures {
    let mut figures = [0; 282];
    for &(start, run) in runs {
        figures[start..start + run.len()].copy_from_slice(run);
    }
    figures
}

/// The digest in larger numbers than it is given in.
fn digest(figures: &Figures) -> u64 {
    let digit = |digest: u64, &figure: &u8| (digest * 31 + u64::from(figure)) % 4_294_967_296;
    figures.iter().fold(0, digit)
}

fn hex(bytes: &[u8]) -> String {
    bytes.iter().map(|byte| format!("{byte:02x}")).collect()
}

/// A section as the lines hold it: without the places of zeros behind its last.
fn section_in_hex(figures: &Figures) -> String {
    let (mut places, behind) = figures.split_at(PRESENT);
    while let Some(kept) = places.strip_suffix(&[0; 10]) {
        places = kept;
    }
    hex(behind) + &hex(places)
}

fn lines(lines: &[String]) -> String {
    lines.iter().map(|line| format!("{line}\n")).collect()
}

fn log_case(log: &[u8]) -> Case {
    Case::Log { log: log.to_vec() }
}

#[track_caller]
fn step_case(figures: &Figures, bytes: &[u8]) -> Case {
    Case::Step {
        section: Box::new(Section::from_figures(figures).expect("a section")),
        bytes: bytes.to_vec(),
    }
}

/// Both forms of the step give this answer and leave these figures. The bytes are one
/// entry, perhaps a cut one, so a run of them comes to the same; or none, and it comes
/// to nothing.
#[track_caller]
fn expect_step(before: &Figures, bytes: &[u8], answer: &str, after: &Figures) {
    if bytes.is_empty() {
        expect_step_and_run(before, bytes, (answer, after), ("0 0 none", before));
    } else {
        let accepted = u8::from(answer.starts_with("ok "));
        let run = format!("1 {accepted} {answer}");
        expect_step_and_run(before, bytes, (answer, after), (&run, after));
    }
}

/// Both forms of the step give this answer and leave these figures, and a run comes to
/// these words and leaves those figures.
#[track_caller]
fn expect_step_and_run(
    before: &Figures,
    bytes: &[u8],
    (answer, after): (&str, &Figures),
    (run, after_run): (&str, &Figures),
) {
    let section = section_in_hex(after);
    let expected = lines(&[
        format!("step {}", bytes.len()),
        format!("value {answer}"),
        format!("value {section}"),
        format!("memory {answer}"),
        format!("memory {section}"),
        format!("run {run} {}", digest(after_run)),
    ]);
    assert_eq!(step_case(before, bytes).expected(), expected);
}

#[test]
fn the_session_by_hand() {
    let in_force = (IN_FORCE, &[1][..]);
    let one = (PRESENT, &[1][..]);
    let a_after_open = (DESK_A, &[0, 10, 0, 1, 1, 1, 0, 10, 1][..]);
    let b_after_return = (DESK_B, &[0, 75, 0, 1, 1, 1, 0, 75, 0, 0, 0, 0, 2][..]);
    let train_2 = &[5, 1, 0, 2, 2, 0, 0, 0, 0, 0][..];
    let trains_3_and_2 = &[5, 1, 0, 3, 2, 0, 0, 0, 0, 0, 5, 1, 0, 2, 2, 0, 0, 0, 0, 0][..];
    let a_after_train = (DESK_A, &[0, 96, 0, 2, 1, 1, 0, 96, 0, 0, 0, 1][..]);
    let after = [
        figures(&[in_force]),
        // OPEN: class 1, asked 2, form 1; out is set.
        figures(&[
            (0, &[2, 1, 0, 1, 2, 0, 1, 2, 0, 0]),
            one,
            in_force,
            a_after_open,
        ]),
        // B has a guest of class 1 and is asked for 2.
        figures(&[
            in_force,
            a_after_open,
            (DESK_B, &[0, 70, 0, 0, 0, 0, 0, 0, 0, 1, 2]),
        ]),
        // RETURN: the guest's class, granted 2; B owes 2.
        figures(&[
            (0, &[4, 2, 0, 1, 1, 0, 1, 0, 2, 0]),
            one,
            in_force,
            a_after_open,
            b_after_return,
        ]),
        // A's opener is home, sent is 0, A holds 2.
        figures(&[
            in_force,
            (DESK_A, &[0, 95, 0, 1, 0, 0, 0, 0, 0, 0, 0, 2]),
            b_after_return,
        ]),
        figures(&[(0, train_2), one, in_force, a_after_train, b_after_return]),
        // 19 is counted for A.
        figures(&[
            (0, train_2),
            one,
            in_force,
            (FOR_A, &[0, 0, 0, 1]),
            a_after_train,
            b_after_return,
        ]),
        // The follower stands nearer A.
        figures(&[
            (0, trains_3_and_2),
            (PRESENT, &[2]),
            in_force,
            (FOR_A, &[0, 0, 0, 1]),
            (DESK_A, &[0, 126, 0, 3, 2, 1, 0, 126]),
            b_after_return,
        ]),
    ];
    let read = [
        "at 0 entry 1 1 0 0 0 0 0 0 0 0 next 2",
        "at 2 entry 63 2 1 10 1 1 2 0 0 0 next 10",
        "at 10 entry 135 6 2 70 0 0 0 0 1 1 next 18",
        "at 18 entry 71 4 2 75 0 0 0 2 0 0 next 24",
        "at 24 entry 135 6 1 95 0 0 0 0 2 1 next 32",
        "at 32 entry 15 5 1 96 1 0 0 0 0 0 next 38",
        "at 38 entry 15 5 1 125 1 0 0 0 0 0 next 44",
        "at 44 entry 15 5 1 126 1 0 0 0 0 0 next 50",
    ];
    // The lines of the session, from the fourth word on.
    let answers = [
        "ok 0 0 -",
        "ok 1 7 15",
        "ok 0 0 -",
        "ok 1 180 B",
        "ok 0 0 -",
        "ok 2 168 B",
        "no 19",
        "ok 3 104 25/10",
    ];
    let ends = [2, 10, 18, 24, 32, 38, 44, 50];
    let mut expected = vec!["log 50".to_owned()];
    for entry in 0..8 {
        let digest = digest(&after[entry]);
        expected.extend([
            read[entry].to_owned(),
            format!("value {} {digest}", answers[entry]),
            format!("memory {} {digest}", answers[entry]),
            format!("append filled {}", ends[entry]),
        ]);
    }
    let log = SESSION.concat();
    expected.extend([
        "at 50 end next 50".to_owned(),
        format!("value {}", section_in_hex(&after[7])),
        format!("memory {}", section_in_hex(&after[7])),
        format!("copy {}", hex(&log)),
    ]);
    assert_eq!(log_case(&log).expected(), lines(&expected));
    assert!(CASES.contains(&log_case(&log)));
}

#[test]
fn bytes_refused_and_a_cut_end_by_hand() {
    // Map 0, BEGIN with a station, BEGIN, an opener asking for 9, a cut TRAIN.
    let log = [
        0x00, 0x03, 1, 1, 0x01, 1, 0x3F, 2, 1, 0, 10, 1, 1, 9, 0x0F, 5, 1,
    ];
    let of = |in_force, count| figures(&[(IN_FORCE, &[in_force]), (OF_NONE + 3, &[count])]);
    let mut expected = vec!["log 17".to_owned()];
    let mut add = |read: &str, answer: &str, after: &Figures| {
        expected.push(read.to_owned());
        expected.push(format!("value {answer} {}", digest(after)));
        expected.push(format!("memory {answer} {}", digest(after)));
    };
    add("at 0 no 2 next 1", "no 2", &of(0, 1));
    add("at 1 no 3 next 4", "no 3", &of(0, 2));
    let begin = "at 4 entry 1 1 0 0 0 0 0 0 0 0 next 6";
    add(begin, "ok 0 0 -", &of(1, 2));
    add("at 6 no 4 next 14", "no 4", &of(1, 3));
    add("at 14 no 1 next 14", "no 1", &of(1, 4));
    // Behind the three lines of each of the first three.
    expected.insert(10, "append filled 2".to_owned());
    let section = section_in_hex(&of(1, 4));
    expected.push(format!("value {section}"));
    expected.push(format!("memory {section}"));
    expected.push("copy 0101".to_owned());
    assert_eq!(log_case(&log).expected(), lines(&expected));
}

#[test]
fn an_empty_log_by_hand() {
    let zeros = "00".repeat(42);
    let expected = format!("log 0\nat 0 end next 0\nvalue {zeros}\nmemory {zeros}\ncopy \n");
    assert_eq!(log_case(&[]).expected(), expected);
    assert_eq!(log_case(&[]).input(), [1, 0, 0]);
    assert!(CASES.contains(&log_case(&[])));
}

/// No bytes are handed to the step: 5 leaves the section, and 1 is counted as of
/// no station. As a log they have no entry.
#[test]
fn sections_in_hex_by_hand() {
    #[track_caller]
    fn expect(before: &Figures, answer: &str, section: &str) {
        let digest = digest(before);
        let expected = format!(
            "step 0\nvalue {answer}\nvalue {section}\nmemory {answer}\nmemory {section}\n\
             run 0 0 none {digest}\n"
        );
        assert_eq!(step_case(before, &[]).expected(), expected);
    }
    // Vehicles present and in force, the three counts, the desks of A and B, and
    // the places.
    let empty = concat!(
        "0000",
        "000000000000000000000001",
        "0000000000000000000000000000",
        "0000000000000000000000000000",
    );
    expect(&figures(&[]), "no 1", empty);
    // A place is written whole, also where it ends with zeros.
    let one_train = figures(&[
        (0, &[5, 1, 0, 2, 2, 0, 0, 0, 0, 0]),
        (PRESENT, &[1, 1]),
        (FOR_B + 3, &[3]),
        (DESK_A, &[0, 96, 0, 2, 1, 1, 0, 96, 0, 0, 0, 1]),
        (DESK_B, &[0, 75, 0, 1, 1, 1, 0, 75, 0, 0, 0, 0, 2, 8]),
    ]);
    let in_hex = concat!(
        "0101",
        "000000000000000300000001",
        "0060000201010060000000010000",
        "004b00010101004b000000000208",
        "05010002020000000000",
    );
    expect(&one_train, "no 1", in_hex);
    // The unused place between two trains is written.
    let gap = figures(&[
        (0, &[5, 1, 0, 2, 2, 0, 0, 0, 0, 0]),
        (20, &[9, 1, 0, 1, 2, 0, 0, 0, 0, 7]),
        (PRESENT, &[2, 1]),
    ]);
    let in_hex = concat!(
        "0201",
        "000000000000000000000000",
        "0000000000000000000000000000",
        "0000000000000000000000000000",
        "05010002020000000000",
        "00000000000000000000",
        "09010001020000000007",
    );
    expect(&gap, "no 5", in_hex);
    // Ill made: no vehicle is present, and the second place has no kind but a class.
    // Not the vehicles present but the figures of the places say what is written.
    let ill_made = figures(&[(16, &[1]), (IN_FORCE, &[1]), (DESK_A + 4, &[13])]);
    let in_hex = concat!(
        "0001",
        "000000000000000000000000",
        "000000000d000000000000000000",
        "0000000000000000000000000000",
        "00000000000000000000",
        "00000000000001000000",
    );
    expect(&ill_made, "no 5", in_hex);
}

#[test]
fn ill_made_sections_by_hand() {
    // In force, and A has sent 13.
    let sent_13 = figures(&[(IN_FORCE, &[1]), (DESK_A + 4, &[13])]);
    for bytes in [
        &[][..],
        &[0x01],
        &[0x00],
        &[0x01, 2],
        &[0x01, 8],
        &[0x01, 1],
    ] {
        expect_step(&sent_13, bytes, "no 5", &sent_13);
    }
    // Not in force, and B's clock is not as fresh.
    let late = figures(&[(DESK_B, &[0, 1])]);
    expect_step(&late, &[0x01, 1], "no 5", &late);
    assert!(CASES.iter().any(|case| match case {
        Case::Step { section, .. } => !section.in_force && section.desks[1].clock == 1,
        _ => false,
    }));
    // One through engine of sender 3.
    let third = figures(&[
        (0, &[3, 3, 0, 1, 2, 0, 1, 0, 0, 0]),
        (PRESENT, &[1, 1]),
        (DESK_A, &[0, 0, 0, 1, 1]),
        (DESK_B, &[0, 0, 0, 1, 1]),
    ]);
    expect_step(&third, &[0x01, 8], "no 5", &third);
}

#[test]
fn line_clears_waiting_by_hand() {
    // A train of A, form 7, with a grant of 2 comes to B, where 5 wait.
    let train = &[5, 1, 0, 7, 2, 0, 0, 0, 2, 0][..];
    let receive = [0x87, 6, 2, 0, 50, 1, 0, 7];
    let at_a = (DESK_A, &[0, 9, 0, 7, 1, 1, 0, 9][..]);
    // Holds, owes and waiting are the last three figures of B's desk.
    let before = |holds, owes, waiting| {
        let at_b = [0, 40, 0, 3, 2, 1, 0, 40, 0, 0, 4, holds, owes, waiting];
        figures(&[(0, train), (PRESENT, &[1, 1]), at_a, (DESK_B, &at_b)])
    };
    let after = |holds, owes, waiting| {
        let at_b = [0, 50, 0, 3, 0, 0, 0, 0, 0, 0, 4, holds, owes, waiting];
        figures(&[(IN_FORCE, &[1]), at_a, (DESK_B, &at_b)])
    };
    expect_step(&before(0, 3, 5), &receive, "ok 0 0 -", &after(0, 2, 2));
    expect_step(&before(0, 1, 5), &receive, "ok 0 0 -", &after(2, 0, 0));
    expect_step(&before(8, 0, 0), &receive, "ok 0 0 -", &after(2, 0, 0));
    expect_step(&before(8, 3, 0), &receive, "ok 0 0 -", &after(8, 2, 2));
    let nine = before(0, 3, 9);
    expect_step(&nine, &receive, "no 5", &nine);
    assert_eq!(nine[281], 9);
}

#[test]
fn the_last_train_by_hand() {
    // A holds 8 and has been asked for 2; its train of kind 9 grants 2.
    let at_b = (DESK_B, &[0, 40, 0, 3, 2, 1, 0, 40, 0, 0, 0, 6, 7, 5][..]);
    let at_a = |figures: &'static [u8]| (DESK_A, figures);
    let before = figures(&[
        (IN_FORCE, &[1]),
        at_a(&[0, 9, 0, 6, 0, 0, 0, 0, 0, 0, 2, 8]),
        at_b,
    ]);
    let away = figures(&[
        (0, &[9, 1, 0, 7, 2, 0, 0, 0, 2, 7]),
        (PRESENT, &[1, 1]),
        at_a(&[0, 10, 0, 7, 1, 1, 0, 10, 0, 0, 0, 0, 2]),
        at_b,
    ]);
    let last_train = [0x4F, 9, 1, 0, 10, 3, 2];
    // 8, 32, 128 and 4: UP, at the booked speed, with a reply.
    expect_step(&before, &last_train, "ok 7 172 B", &away);
    // B owes 7 and has 5 waiting. The two take their place and are held.
    let received = figures(&[
        (IN_FORCE, &[1]),
        at_a(&[0, 10, 0, 7, 1, 1, 0, 10, 0, 0, 0, 0, 2]),
        (DESK_B, &[0, 50, 0, 3, 0, 0, 0, 0, 0, 0, 0, 2]),
    ]);
    let receive = [0x87, 6, 2, 0, 50, 1, 0, 7];
    expect_step(&away, &receive, "ok 0 0 -", &received);
    // A may not have it back, and 8 given up are one too many.
    let mut refused = away;
    refused[FOR_A + 3] = 1;
    expect_step(&away, &[0x87, 6, 1, 0, 50, 1, 0, 7], "no 21", &refused);
    let mut eight = away;
    eight[9] = 8;
    expect_step(&eight, &receive, "no 5", &eight);
    // A kind behind the last is none; it is counted for no station.
    let mut none = before;
    none[OF_NONE + 3] = 1;
    expect_step(&before, &[0x4F, 10, 1, 0, 10, 3, 2], "no 2", &none);
}

#[test]
fn a_return_while_line_clears_are_held_by_hand() {
    for (station, desk, count, answer) in [
        (1, DESK_A, FOR_A, "ok 8 172 B"),
        (2, DESK_B, FOR_B, "ok 8 180 B"),
    ] {
        // Its opener is out and a guest of class 4 is here; it is asked for 3, holds 1,
        // owes 2, and 6 wait.
        let before = figures(&[
            (IN_FORCE, &[1]),
            (desk, &[0, 30, 0, 7, 3, 1, 0, 15, 1, 4, 3, 1, 2, 6]),
        ]);
        // It takes 3 granted along, which are owed; what is held and waits stays.
        let after = figures(&[
            (0, &[4, station, 0, 8, 3 - station, 0, 4, 0, 3, 0]),
            (PRESENT, &[1, 1]),
            (desk, &[0, 45, 0, 8, 4, 1, 0, 45, 1, 0, 0, 1, 3, 6]),
        ]);
        let grants = [0x47, 4, station, 0, 45, 3];
        expect_step(&before, &grants, answer, &after);
        assert!(CASES.contains(&step_case(&before, &grants)));
        // Without the guest it is 14, and counted for its station.
        let back = [0x07, 4, station, 0, 45];
        let mut no_guest = before;
        no_guest[desk + 9] = 0;
        let mut refused = no_guest;
        refused[count + 3] = 1;
        expect_step(&no_guest, &back, "no 14", &refused);
        assert!(CASES.contains(&step_case(&no_guest, &back)));
        // A THROUGH is 11 with the guest, where it is not out and owes nothing.
        let mut engine = before;
        (engine[desk + 8], engine[desk + 12]) = (0, 0);
        let mut refused = engine;
        refused[count + 3] = 1;
        let through = [0x1F, 3, station, 0, 45, 1, 1];
        expect_step(&engine, &through, "no 11", &refused);
        assert!(CASES.contains(&step_case(&engine, &through)));
    }
}

/// Of a desk with a guest and of one without, for either station.
#[test]
fn sections_have_a_return_from_every_number_of_line_clears_held_that_matters() {
    for station in [1, 2] {
        let mut accepted = BTreeSet::new();
        let mut without_a_guest = BTreeSet::new();
        for case in CASES.iter() {
            let Case::Step { section, bytes } = case else {
                continue;
            };
            let &[_, 4, at, ..] = &bytes[..] else {
                continue;
            };
            if at != station {
                continue;
            }
            let holds = section.desks[usize::from(station - 1)].holds;
            match second::step(section, bytes).0 {
                Ok(_) => accepted.insert(holds),
                Err(Refusal::NoGuest) => without_a_guest.insert(holds),
                Err(refusal) => {
                    assert_ne!(refusal, Refusal::HoldsLineClear);
                    false
                }
            };
        }
        assert!(accepted.is_superset(&[0, 1, 2, 3, 5, 7, 8].into()));
        assert!(without_a_guest.is_superset(&[0, 1, 3, 8].into()));
    }
}

#[test]
fn a_train_booked_in_view_2_by_hand() {
    // 32 and 128, with 8 from A and 16 from B.
    for (station, desk, answer) in [(1, DESK_A, "ok 8 168 B"), (2, DESK_B, "ok 8 176 B")] {
        let before = figures(&[
            (IN_FORCE, &[1]),
            (desk, &[0, 30, 0, 7, 0, 0, 0, 0, 0, 0, 0, 2]),
        ]);
        let after = figures(&[
            (0, &[5, station, 0, 8, 3 - station, 0, 0, 0, 0, 0]),
            (PRESENT, &[1, 1]),
            (desk, &[0, 45, 0, 8, 1, 1, 0, 45, 0, 0, 0, 1]),
        ]);
        let train = [0x0F, 5, station, 0, 45, 2];
        expect_step(&before, &train, answer, &after);
        assert!(CASES.contains(&step_case(&before, &train)));
    }
}

#[test]
fn a_run_with_a_cut_end_by_hand() {
    // A holds 3, and B owes them.
    let before = figures(&[
        (IN_FORCE, &[1, 0, 0, 0, 3, 0, 0, 0, 5, 0, 0, 0, 7]),
        (DESK_A, &[0, 30, 0, 7, 0, 0, 0, 0, 0, 0, 0, 3]),
        (DESK_B, &[0, 60, 0, 0, 0, 0, 0, 0, 0, 0, 0, 0, 3]),
    ]);
    let log = [
        &[0x0F, 5, 1, 0, 40, 1][..],
        // 29 minutes behind it: 19, counted for A.
        &[0x0F, 5, 1, 0, 69, 1],
        &[0x0F, 5, 1, 0, 70, 2],
        // B has the first of them.
        &[0x87, 6, 2, 0, 75, 1, 0, 8],
        // Cut, counted for no station.
        &[0x0F, 5, 1],
    ]
    .concat();
    let after_step = figures(&[
        (0, &[5, 1, 0, 8, 2, 0, 0, 0, 0, 0]),
        (PRESENT, &[1, 1, 0, 0, 0, 3, 0, 0, 0, 5, 0, 0, 0, 7]),
        (DESK_A, &[0, 40, 0, 8, 1, 1, 0, 40, 0, 0, 0, 2]),
        (DESK_B, &[0, 60, 0, 0, 0, 0, 0, 0, 0, 0, 0, 0, 3]),
    ]);
    let after_run = figures(&[
        (0, &[5, 1, 0, 9, 2, 0, 0, 0, 0, 0]),
        (PRESENT, &[1, 1, 0, 0, 0, 4, 0, 0, 0, 5, 0, 0, 0, 8]),
        (DESK_A, &[0, 70, 0, 9, 2, 1, 0, 70, 0, 0, 0, 1]),
        (DESK_B, &[0, 75, 0, 0, 0, 0, 0, 0, 0, 0, 0, 0, 2]),
    ]);
    let step = ("ok 8 168 B", &after_step);
    expect_step_and_run(&before, &log, step, ("5 3 no 1", &after_run));
    assert!(CASES.contains(&step_case(&before, &log)));
}

/// A vehicle of each kind from either station.
const VEHICLES: [[u8; 10]; 10] = [
    [2, 1, 0, 7, 2, 0, 3, 4, 0, 0],
    [4, 1, 0, 5, 2, 0, 3, 0, 0, 0],
    [5, 1, 0, 3, 2, 0, 0, 0, 0, 0],
    [9, 1, 0, 2, 2, 0, 0, 0, 0, 2],
    [3, 1, 0, 9, 2, 0, 1, 0, 0, 0],
    [2, 2, 0, 9, 1, 0, 3, 4, 0, 0],
    [9, 2, 0, 2, 1, 0, 0, 0, 0, 2],
    [5, 2, 0, 4, 1, 0, 0, 0, 0, 0],
    [4, 2, 0, 6, 1, 0, 3, 0, 0, 0],
    [3, 2, 0, 8, 1, 0, 1, 0, 0, 0],
];

/// These vehicles, in force, with a clock of 500 and a departure at 480 at each desk.
fn with_vehicles() -> Figures {
    let desk = [0x01, 0xF4, 0, 40, 6, 1, 0x01, 0xE0, 1, 3, 4, 5, 2, 6];
    figures(&[
        (0, &VEHICLES.concat()),
        (PRESENT, &[10, 1, 0, 0, 0, 3, 0, 0, 0, 5, 0, 0, 0, 7]),
        (DESK_A, &desk),
        (DESK_B, &desk),
    ])
}

/// The two that face one another meet and head to A; A's opener comes home at 500.
const MEET_AND_RECEIVE: [u8; 14] = [0x83, 7, 1, 1, 0, 9, 0x87, 6, 1, 0x01, 0xF4, 1, 0, 7];

#[test]
fn a_run_among_vehicles_by_hand() {
    let before = with_vehicles();
    // RESUME with vehicles in the section is 8; then a TRAIN of B at 510.
    let log = [
        &MEET_AND_RECEIVE[..],
        &[0x01, 8],
        &[0x0F, 5, 2, 0x01, 0xFE, 1],
    ]
    .concat();
    // Heading and met of both.
    let mut met = before;
    met[44..46].copy_from_slice(&[1, 1]);
    met[54..56].copy_from_slice(&[1, 1]);
    // The opener is gone, and B's train stands behind all others.
    let after_run = figures(&[
        (0, &met[10..100]),
        (90, &[5, 2, 0, 41, 1, 0, 0, 0, 0, 0]),
        (PRESENT, &[10, 1, 0, 0, 0, 3, 0, 0, 0, 5, 0, 0, 0, 8]),
        (DESK_A, &[0x01, 0xF4, 0, 40, 5, 0, 0, 0, 0, 3, 4, 5, 2, 6]),
        (
            DESK_B,
            &[0x01, 0xFE, 0, 41, 7, 1, 0x01, 0xFE, 1, 3, 4, 4, 2, 6],
        ),
    ]);
    let run = ("4 3 ok 41 112 25/10", &after_run);
    expect_step_and_run(&before, &log, ("ok 0 0 -", &met), run);
    assert!(CASES.contains(&step_case(&before, &log)));
}

#[test]
fn runs_from_ill_made_sections_by_hand() {
    #[track_caller]
    fn expect(section: &Figures, log: &[u8], run: &str) {
        expect_step_and_run(section, log, ("no 5", section), (run, section));
        assert!(CASES.contains(&step_case(section, log)));
    }
    // B has sent 13. Three entries, the last a TRAIN of A at 510.
    let mut sent_13 = with_vehicles();
    sent_13[DESK_B + 4] = 13;
    let log = [&MEET_AND_RECEIVE[..], &[0x0F, 5, 1, 0x01, 0xFE, 1]].concat();
    expect(&sent_13, &log, "3 0 no 5");
    // Not in force. BEGIN, bytes that are else 3 and 2, and a cut end, else 1, which
    // is one entry.
    let mut idle = with_vehicles();
    idle[IN_FORCE] = 0;
    let log = [0x01, 1, 0x03, 1, 1, 0x00, 0x87, 6, 1, 0];
    expect(&idle, &log, "4 0 no 5");
    // No bytes.
    expect(&idle, &[], "0 0 none");
    let fresh = figures(&[]);
    let mut counted = fresh;
    counted[OF_NONE + 3] = 1;
    expect_step_and_run(&fresh, &[], ("no 1", &counted), ("0 0 none", &fresh));
    assert!(CASES.contains(&step_case(&fresh, &[])));
}

/// The line of a run, by the step handed each entry in turn. The entries are cut by
/// their maps alone, and one that is cut ends the log.
fn stepped_in_turn(section: &Section, mut log: &[u8]) -> String {
    let mut section = section.clone();
    let (mut entries, mut accepted) = (0, 0);
    let mut last = "none".to_owned();
    while let Some(&map) = log.first() {
        let length = second::entry_length(map).min(log.len());
        let is_cut = length < second::entry_length(map);
        let (entry, rest) = log.split_at(length);
        let (answer, after) = second::step(&section, entry);
        section = after;
        entries += 1;
        last = match answer {
            Ok(answer) => {
                accepted += 1;
                format!("ok {} {} {}", answer.form, answer.forms, answer.speed)
            }
            Err(refusal) => format!("no {}", refusal.number()),
        };
        log = if is_cut { &[] } else { rest };
    }
    let digest = digest(&section.figures().unwrap());
    format!("run {entries} {accepted} {last} {digest}")
}

#[track_caller]
fn expect_run_as_stepped(case: &Case) {
    let Case::Step { section, bytes } = case else {
        panic!("{case:?}");
    };
    let expected = case.expected();
    let run = expected.lines().nth(5);
    assert_eq!(run, Some(&stepped_in_turn(section, bytes)[..]));
    assert_eq!(expected.lines().count(), 6);
}

#[test]
fn every_stored_run_is_as_the_step_handed_each_entry_in_turn() {
    let steps = CASES
        .iter()
        .filter(|case| matches!(case, Case::Step { .. }));
    steps.for_each(expect_run_as_stepped);
}

/// Of any section, and of the same made ill.
#[test]
fn a_long_run_is_as_the_step_handed_each_entry_in_turn() {
    let mut random = Random::new(75);
    for _ in 0..200 {
        let mut section = Box::new(any_section(&mut random));
        let start = (*section).clone();
        let mut generator = Generator::at(start, random.word(), Options::default());
        let bytes: Vec<u8> = (0..30).flat_map(|_| generator.next_step()).collect();
        expect_run_as_stepped(&Case::Step {
            section: section.clone(),
            bytes: bytes.clone(),
        });
        section.desks[0].sent = 13;
        expect_run_as_stepped(&Case::Step { section, bytes });
    }
}

#[test]
fn sections_have_every_number_of_line_clears_given_up_by_either_station() {
    for station in Station::BOTH {
        let mut given_up = BTreeSet::new();
        for case in CASES.iter() {
            if let Case::Step { section, .. } = case {
                let last = section
                    .sent_by(station)
                    .filter(|vehicle| vehicle.left_on == Some(Kind::LastTrain));
                given_up.extend(last.map(|vehicle| vehicle.given_up));
            }
        }
        let expected: BTreeSet<u8> = (0..=8).chain([u8::MAX]).collect();
        assert_eq!(given_up, expected);
    }
}

/// Of both kinds of train, from either station, in every view.
#[test]
fn sections_have_every_follower_and_every_booked_train() {
    let mut seen = BTreeSet::new();
    for case in CASES.iter() {
        let Case::Step { section, bytes } = case else {
            continue;
        };
        // A train has bits 0 to 3: its view is the sixth byte.
        let (&[_, kind @ (5 | 9), station, _, _, view, ..], Ok(accepted)) =
            (&bytes[..], second::step(section, bytes).0)
        else {
            continue;
        };
        seen.insert((kind, station, view, accepted.speed.to_string()));
    }
    let mut expected = BTreeSet::new();
    for kind in [5, 9] {
        for station in [1, 2] {
            for (view, follower) in [(1, "25/10"), (2, "10/10"), (3, "10/10")] {
                expected.insert((kind, station, view, follower.to_owned()));
                expected.insert((kind, station, view, "B".to_owned()));
            }
        }
    }
    assert_eq!(seen, expected);
}

#[test]
fn sections_have_line_clears_waiting_at_either_station() {
    for station in Station::BOTH {
        let waiting: BTreeSet<u8> = CASES
            .iter()
            .filter_map(|case| match case {
                Case::Step { section, .. } => Some(section.desk(station).waiting),
                _ => None,
            })
            .collect();
        assert!(
            (0..=9).all(|figure| waiting.contains(&figure)),
            "{waiting:?}"
        );
    }
}

#[test]
fn form_9999_and_a_count_at_its_largest_by_hand() {
    let through = [0x1F, 3, 1, 0, 9, 3, 1];
    let before = figures(&[(IN_FORCE, &[1]), (DESK_A, &[0, 9, 0x27, 0x0E, 11])]);
    let after = figures(&[
        (0, &[3, 1, 0x27, 0x0F, 2, 0, 1, 0, 0, 0]),
        (PRESENT, &[1, 1]),
        (DESK_A, &[0, 9, 0x27, 0x0F, 12, 1, 0, 9]),
    ]);
    expect_step(&before, &through, "ok 9999 1 W", &after);
    let used_up = figures(&[
        (IN_FORCE, &[1]),
        (FOR_A, &[0xFF, 0xFF, 0xFF, 0xFE, 0, 0, 0, 8, 0, 0, 0, 9]),
        (DESK_A, &[0, 9, 0x27, 0x0F]),
    ]);
    let counted = figures(&[
        (IN_FORCE, &[1]),
        (FOR_A, &[0xFF, 0xFF, 0xFF, 0xFF, 0, 0, 0, 8, 0, 0, 0, 9]),
        (DESK_A, &[0, 9, 0x27, 0x0F]),
    ]);
    expect_step(&used_up, &through, "no 18", &counted);
    expect_step(&counted, &through, "no 18", &counted);
    // A's count stops neither B's nor that of none.
    let count_after = |bytes: &[u8], answer: &str, place: usize, count: u8| {
        let mut after = counted;
        after[place + 3] = count;
        expect_step(&counted, bytes, answer, &after);
    };
    count_after(&[0x0F, 5, 2, 0, 9, 1], "no 15", FOR_B, 9);
    count_after(&[0x83, 7, 1, 1, 0, 1], "no 22", OF_NONE, 10);
    count_after(&[0x0F, 5, 1, 0, 9], "no 1", OF_NONE, 10);
    count_after(&[0x0F, 5, 1, 0, 9, 4], "no 4", OF_NONE, 10);
    let mut input = vec![2];
    input.extend(counted);
    input.extend([0, 7]);
    input.extend(through);
    assert_eq!(step_case(&counted, &through).input(), input);
}

#[test]
fn buffers_by_hand() {
    let receive = Entry::receive(Station::A, 0x0102, Station::B, 0x0304);
    let case = |entry, fill, buffer: &[u8]| Case::Write {
        entry,
        fill,
        buffer: buffer.to_vec(),
    };
    let written = case(receive, 1, &[0xEE; 10]);
    let expected = "write 1 10\nappend filled 9\nbuffer ee8706010102020304ee\n\
        front filled 8\nbuffer 8706010102020304eeee\n";
    assert_eq!(written.expected(), expected);
    let input = [
        3, 0x87, 6, 1, 1, 2, 0, 0, 0, 0, 2, 3, 4, 0, 1, 0, 10, 0xEE, 0xEE, 0xEE, 0xEE, 0xEE, 0xEE,
        0xEE, 0xEE, 0xEE, 0xEE,
    ];
    assert_eq!(written.input(), input);
    // One byte short behind the fill point, but not at the front.
    let short = case(receive, 1, &[0xEE; 8]).expected();
    let expected = "write 1 8\nappend no 23\nbuffer eeeeeeeeeeeeeeee\n\
        front filled 8\nbuffer 8706010102020304\n";
    assert_eq!(short, expected);
    let none = case(receive, 9, &[]).expected();
    assert_eq!(
        none,
        "write 9 0\nappend no 23\nbuffer \nfront no 23\nbuffer \n"
    );
    // An absent field that is not 0 comes before the room.
    let stray = Entry {
        form: 1,
        ..Entry::begin()
    };
    let refused = case(stray, 2, &[7]).expected();
    assert_eq!(
        refused,
        "write 2 1\nappend no 4\nbuffer 07\nfront no 4\nbuffer 07\n"
    );
}

#[test]
fn positions_by_hand() {
    let log = SESSION.concat();
    let read = |position, log: &[u8]| {
        let case = Case::Read {
            position,
            log: log.to_vec(),
        };
        case.expected()
    };
    let entry = "read 18 50\nat 18 entry 71 4 2 75 0 0 0 2 0 0 next 24\n";
    assert_eq!(read(18, &log), entry);
    // Inside an entry: 02 has no kind, 01 0A is of no kind.
    assert_eq!(read(3, &log), "read 3 50\nat 3 no 2 next 5\n");
    assert_eq!(read(49, &log), "read 49 50\nat 49 no 1 next 49\n");
    assert_eq!(read(50, &log), "read 50 50\nat 50 end next 50\n");
    assert_eq!(read(51, &log), "read 51 50\nat 51 no 1 next 51\n");
    assert_eq!(
        read(65_535, &[]),
        "read 65535 0\nat 65535 no 1 next 65535\n"
    );
    let case = Case::Read {
        position: 258,
        log: vec![7],
    };
    assert_eq!(case.input(), [4, 1, 2, 0, 1, 7]);
}

/// What is an entry on one line is none on the other.
#[test]
fn the_double_line_reads_and_writes_by_its_own_table() {
    let single_train = vec![0x0F, 5, 1, 0, 10, 1];
    let double_train = vec![0x07, 5, 1, 0, 10];
    let read = |log: &[u8]| {
        let log = log.to_vec();
        Case::DoubleRead { position: 0, log }.expected()
    };
    let entry = "read 0 5\nat 0 entry 7 5 1 10 0 0 0 0 0 0 next 5\n";
    assert_eq!(read(&double_train), entry);
    assert_eq!(read(&single_train), "read 0 6\nat 0 no 3 next 6\n");
    let position = 0;
    let log = double_train;
    let single = Case::Read { position, log };
    assert_eq!(single.expected(), "read 0 5\nat 0 no 3 next 5\n");
    let write = |entry: Entry, fill: u16| Case::DoubleWrite {
        entry,
        fill,
        buffer: vec![9; 6],
    };
    let train = Entry::double_line_train(Station::A, 10);
    assert_eq!(
        write(train, 1).expected(),
        "write 1 6\nappend filled 6\nbuffer 09070501000a\n\
         front filled 5\nbuffer 070501000a09\n"
    );
    assert_eq!(
        write(Entry::last_train(Station::A, 10, 1, 0, 0), 7).expected(),
        "write 7 6\nappend no 2\nbuffer 090909090909\nfront no 2\nbuffer 090909090909\n"
    );
    let input = [5, 7, 5, 1, 0, 10, 0, 0, 0, 0, 0, 0, 0, 0, 1, 0, 6];
    assert_eq!(write(train, 1).input()[..17], input);
    let read = Case::DoubleRead {
        position: 258,
        log: vec![7],
    };
    assert_eq!(read.input(), [6, 1, 2, 0, 1, 7]);
}

/// The double line's cases stand behind all others.
#[test]
fn the_double_line_comes_last() {
    let is_double =
        |case: &Case| matches!(case, Case::DoubleWrite { .. } | Case::DoubleRead { .. });
    let first = CASES.iter().position(is_double).unwrap();
    assert!(CASES[first..].iter().all(is_double));
    assert!(CASES.len() - first > 120);
}

/// Reads the input as the other program has to.
fn parsed(mut input: &[u8]) -> Vec<Case> {
    fn take<'a>(input: &mut &'a [u8], length: usize) -> &'a [u8] {
        let (taken, rest) = input.split_at(length);
        *input = rest;
        taken
    }
    fn pair(input: &mut &[u8]) -> u16 {
        u16::from_be_bytes(take(input, 2).try_into().unwrap())
    }
    fn bytes(input: &mut &[u8]) -> Vec<u8> {
        let length = usize::from(pair(input));
        assert!(length <= LONGEST);
        take(input, length).to_vec()
    }
    let mut cases = Vec::new();
    while !input.is_empty() {
        let case = match take(&mut input, 1)[0] {
            1 => Case::Log {
                log: bytes(&mut input),
            },
            2 => {
                let figures: &Figures = take(&mut input, 282).try_into().unwrap();
                let section = Box::new(Section::from_figures(figures).unwrap());
                Case::Step {
                    section,
                    bytes: bytes(&mut input),
                }
            }
            number @ (3 | 5) => {
                let &[map, kind, station, t1, t0, view, class, asked, granted, sender, f1, f0] =
                    take(&mut input, 12)
                else {
                    unreachable!()
                };
                let entry = Entry {
                    map,
                    kind,
                    station,
                    time: u16::from_be_bytes([t1, t0]),
                    view,
                    class,
                    asked,
                    granted,
                    sender,
                    form: u16::from_be_bytes([f1, f0]),
                };
                let fill = pair(&mut input);
                let buffer = bytes(&mut input);
                match number {
                    3 => Case::Write {
                        entry,
                        fill,
                        buffer,
                    },
                    _ => Case::DoubleWrite {
                        entry,
                        fill,
                        buffer,
                    },
                }
            }
            4 => Case::Read {
                position: pair(&mut input),
                log: bytes(&mut input),
            },
            6 => Case::DoubleRead {
                position: pair(&mut input),
                log: bytes(&mut input),
            },
            other => panic!("case {other}"),
        };
        cases.push(case);
    }
    cases
}

#[test]
fn the_input_is_read_back() {
    let input = input(&CASES);
    assert_eq!(parsed(&input), *CASES);
    assert_eq!(all(), *CASES);
    assert!(input.len() < 360_000, "{}", input.len());
}

#[test]
fn the_sections_are_such_as_both_programs_can_hold() {
    for case in CASES.iter() {
        let Case::Step { section, .. } = case else {
            continue;
        };
        assert!(section.figures().is_some());
        for (place, vehicle) in section.places.iter().enumerate() {
            let used = place < section.present;
            match vehicle.left_on {
                None => assert!(!used && *vehicle == Vehicle::default(), "{section:?}"),
                Some(kind) => assert!(kind.is_departure(), "{section:?}"),
            }
        }
    }
}

/// The expected lines of all cases of one type.
fn lines_of(wanted: fn(&Case) -> bool) -> Vec<String> {
    let cases = CASES.iter().filter(|case| wanted(case));
    let texts = cases.map(Case::expected);
    texts
        .flat_map(|text| text.lines().map(str::to_owned).collect::<Vec<_>>())
        .collect()
}

/// The numbers that follow `no` in the lines starting with this word.
fn refusals(lines: &[String], word: &str) -> BTreeSet<u8> {
    let start = format!("{word} no ");
    lines
        .iter()
        .filter_map(|line| line.strip_prefix(&start))
        .filter_map(|rest| rest.split(' ').next()?.parse().ok())
        .collect()
}

#[test]
fn the_logs_have_every_kind_and_every_refusal_that_a_short_log_reaches() {
    let lines = lines_of(|case| matches!(case, Case::Log { .. }));
    let expected: BTreeSet<u8> = (1..=22)
        .filter(|number| ![5, 18].contains(number))
        .collect();
    assert_eq!(refusals(&lines, "value"), expected);
    assert_eq!(refusals(&lines, "memory"), expected);
    assert_eq!(refusals(&lines, "append"), BTreeSet::new());
    let mut accepted = BTreeSet::new();
    for pair in lines.windows(2) {
        let words: Vec<&str> = pair[0].split(' ').collect();
        if words.get(2) == Some(&"entry") && pair[1].starts_with("value ok ") {
            accepted.insert(words[4].parse::<u8>().unwrap());
        }
    }
    let kinds: BTreeSet<u8> = Kind::ALL.map(Kind::number).into();
    assert_eq!(accepted, kinds);
}

#[test]
fn the_sections_have_every_refusal() {
    let lines = lines_of(|case| matches!(case, Case::Step { .. }));
    let expected: BTreeSet<u8> = (1..=22).collect();
    assert_eq!(refusals(&lines, "value"), expected);
    assert_eq!(refusals(&lines, "memory"), expected);
    // Every kind is accepted on some section, form 9,999 among them.
    let mut accepted = BTreeSet::new();
    for case in CASES.iter() {
        if let Case::Step { section, bytes } = case {
            if second::step(section, bytes).0.is_ok() {
                accepted.insert(bytes[1]);
            }
        }
    }
    assert_eq!(accepted, (1..=9).collect());
    assert!(lines.iter().any(|line| line.starts_with("value ok 9999 ")));
}

#[test]
fn a_step_refused_with_5_leaves_every_figure() {
    let mut ill_made = 0;
    for case in CASES.iter() {
        let Case::Step { section, .. } = case else {
            continue;
        };
        let text = case.expected();
        let lines: Vec<&str> = text.lines().collect();
        let is_5 = lines[1] == "value no 5";
        assert_eq!(is_5, !section.is_well_made());
        if is_5 {
            ill_made += 1;
            let figures = section.figures().unwrap();
            let section = section_in_hex(&figures);
            assert_eq!(lines[2], format!("value {section}"));
            assert_eq!(lines[3], "memory no 5");
            assert_eq!(lines[4], format!("memory {section}"));
            let digest = digest(&figures);
            let run = lines[5].strip_suffix(&format!(" {digest}")).unwrap();
            assert!(run.ends_with(" 0 no 5") || run == "run 0 0 none", "{run}");
        }
    }
    assert!(ill_made > 100, "{ill_made}");
}

#[test]
fn the_writer_has_2_3_4_and_23_and_success() {
    for wanted in [
        |case: &Case| matches!(case, Case::Write { .. }),
        |case: &Case| matches!(case, Case::DoubleWrite { .. }),
    ] {
        let lines = lines_of(wanted);
        for word in ["append", "front"] {
            assert_eq!(refusals(&lines, word), [2, 3, 4, 23].into());
            assert!(lines
                .iter()
                .any(|line| line.starts_with(&format!("{word} filled "))));
        }
    }
    for case in CASES.iter() {
        let (Case::Write {
            entry,
            fill,
            buffer,
        }
        | Case::DoubleWrite {
            entry,
            fill,
            buffer,
        }) = case
        else {
            continue;
        };
        // What was there keeps its value, but where the entry now stands.
        let text = case.expected();
        let appended = text
            .lines()
            .nth(2)
            .unwrap()
            .strip_prefix("buffer ")
            .unwrap();
        let kept = hex(buffer);
        match text.lines().nth(1).unwrap().strip_prefix("append filled ") {
            Some(end) => {
                let end: usize = end.parse().unwrap();
                let fill = usize::from(*fill);
                assert_eq!(end - fill, second::entry_length(entry.map));
                assert_eq!(appended[..2 * fill], kept[..2 * fill]);
                assert_eq!(appended[2 * end..], kept[2 * end..]);
            }
            None => assert_eq!(appended, kept),
        }
    }
}

/// What the readers of these cases have read, in short.
fn outcomes(wanted: fn(&Case) -> bool) -> BTreeSet<String> {
    let mut outcomes = BTreeSet::new();
    for line in lines_of(wanted)
        .iter()
        .filter(|line| line.starts_with("at "))
    {
        let words: Vec<&str> = line.split(' ').collect();
        outcomes.insert(match words[2] {
            "no" => words[2..4].join(" "),
            word => word.to_owned(),
        });
    }
    outcomes
}

#[test]
fn the_positions_have_every_outcome() {
    let every = ["end", "entry", "no 1", "no 2", "no 3", "no 4"];
    let every: BTreeSet<String> = every.map(str::to_owned).into();
    assert_eq!(outcomes(|case| matches!(case, Case::Read { .. })), every);
    let double = |case: &Case| matches!(case, Case::DoubleRead { .. });
    assert_eq!(outcomes(double), every);
    for case in CASES.iter() {
        if let Case::Read { position, log } | Case::DoubleRead { position, log } = case {
            if usize::from(*position) > log.len() {
                let line = format!("at {position} no 1 next {position}\n");
                assert!(case.expected().ends_with(&line));
            }
        }
    }
}

#[test]
fn the_expected_output_stays_below_the_limit_of_the_other_program() {
    let expected = expected(&CASES);
    // The limit is 1,048,576 bytes; some room is kept below it.
    assert!(expected.len() < 900_000, "{}", expected.len());
    assert!(expected.ends_with('\n'));
    let starts = ["log ", "step ", "write ", "read "];
    let started = expected
        .lines()
        .filter(|line| starts.iter().any(|start| line.starts_with(start)));
    assert_eq!(started.count(), CASES.len());
}

fn run_cases(arguments: &[&str]) -> Output {
    Command::new(env!("CARGO_BIN_EXE_cases"))
        .args(arguments)
        .output()
        .expect("the program runs")
}

#[test]
fn the_program_writes_both_files() {
    let output = run_cases(&["input"]);
    assert!(output.status.success());
    assert_eq!(output.stdout, input(&CASES));
    let output = run_cases(&["expected"]);
    assert!(output.status.success());
    assert_eq!(output.stdout, expected(&CASES).into_bytes());
    assert_eq!(output.stderr, b"");
}

#[test]
fn a_bad_call_gives_one_line_of_usage() {
    let bad_calls: [&[&str]; 4] = [&[], &["output"], &["input", "expected"], &["Input"]];
    for arguments in bad_calls {
        let output = run_cases(arguments);
        assert_eq!(output.status.code(), Some(2), "{arguments:?}");
        assert_eq!(output.stdout, b"");
        assert_eq!(
            output.stderr,
            b"usage: cases input|expected|doubleinput|doubleexpected\n"
        );
    }
}
