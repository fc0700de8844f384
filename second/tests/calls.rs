//! What is among the random calls of the functions for hosts.

use std::collections::BTreeSet;
use std::process::{Command, Output};

use second::calls::{Call, Calls};
use second::position::POSITION_LENGTH;
use second::shelf::{NAME_LENGTH, SHELF_LENGTH, SHELF_PLACE_LENGTH};
use second::{
    decode, entry_length, fetch, read_entry, step_position, store, write_entry, Desk, Kind, Section,
};

const CALLS: usize = 5_000;

/// The calls of a seed with their answers and what they leave.
fn made(seed: u64) -> impl Iterator<Item = (Call, u32, Call)> {
    Calls::new(seed).take(CALLS).map(|call| {
        let mut after = call.clone();
        let answer = after.run();
        (call, answer, after)
    })
}

fn is_name(name: &[u8]) -> bool {
    (1..=NAME_LENGTH).contains(&name.len()) && name.iter().all(u8::is_ascii_uppercase)
}

fn places_of(shelf: &[u8]) -> usize {
    shelf
        .chunks(SHELF_PLACE_LENGTH)
        .take_while(|place| place.iter().any(|&byte| byte != 0))
        .count()
}

#[test]
fn each_function_gives_each_of_its_answers() {
    for seed in 0..4 {
        let mut given = BTreeSet::new();
        let mut names_refused = BTreeSet::new();
        for (call, answer, _) in made(seed) {
            if let (Call::Fetch { name, .. }, 24) = (&call, answer) {
                names_refused.insert(is_name(name));
            }
            if !matches!(call, Call::Length { .. }) {
                given.insert((call.number(), answer));
            }
        }
        let of = |function: u8| -> Vec<u32> {
            let own = given.iter().filter(|(number, _)| *number == function);
            own.map(|(_, answer)| *answer).collect()
        };
        assert_eq!(of(1), [0, 5, 24, 25, 26]);
        assert_eq!(of(2), [0, 5, 23, 24]);
        assert_eq!(names_refused.len(), 2, "not a name, and not there");
        let mut steps = of(3);
        // Few sections that have used up their form numbers are met.
        steps.retain(|&answer| answer != 18);
        let refused = (1..=4).chain(6..=17).chain(19..=23);
        let expected: Vec<u32> = [0].into_iter().chain(refused).chain([26]).collect();
        assert_eq!(steps, expected, "seed {seed}");
        assert_eq!(of(4), [0, 2, 3, 4, 23]);
        assert_eq!(of(5), [0, 1, 2, 3, 4, 23]);
    }
}

#[test]
fn accepted_steps_have_every_kind_and_every_speed_of_a_single_line() {
    for seed in 0..4 {
        let mut speeds = BTreeSet::new();
        let mut kinds = BTreeSet::new();
        for (call, answer, after) in made(seed) {
            if let (Call::Step { entry, .. }, 0, Call::Step { answer, .. }) = (call, answer, after)
            {
                speeds.insert(answer[2]);
                kinds.insert(decode(&entry).unwrap().kind);
            }
        }
        // None, walking pace, 10, 15, booked, 10/10 and 25/10.
        let expected = [0, 65_536, 131_082, 131_087, 196_608, 264_714, 268_554];
        assert!(speeds.iter().eq(&expected), "{speeds:?}");
        assert_eq!(kinds.len(), Kind::ALL.len());
    }
}

#[test]
fn positions_and_shelves_are_rich() {
    let mut kinds = BTreeSet::new();
    let [mut full, mut running, mut guests, mut owed, mut waiting, mut given_up, mut large] =
        [0; 7];
    let mut shelves = [0; 17];
    for (call, _, _) in (0..2).flat_map(made) {
        if let Call::Store { shelf, .. } | Call::Fetch { shelf, .. } = &call {
            if shelf.len() == SHELF_LENGTH {
                shelves[places_of(shelf)] += 1;
            }
        }
        let Call::Step { position, .. } = call else {
            continue;
        };
        let Ok(section) = Section::from_position(&position) else {
            continue;
        };
        let any = |figure: fn(&Desk) -> bool| u32::from(section.desks.iter().any(figure));
        kinds.extend(section.vehicles().iter().map(|vehicle| {
            let kind = vehicle.left_on.unwrap().number();
            (kind, vehicle.sender, vehicle.met)
        }));
        full += u32::from(section.present >= 22);
        running += any(|desk| desk.interval.is_some());
        guests += any(|desk| desk.guest > 0);
        owed += any(|desk| desk.owes > 0 && desk.holds > 0);
        waiting += any(|desk| desk.waiting > 0);
        given_up += u32::from(section.vehicles().iter().any(|train| train.given_up > 0));
        large += u32::from(section.refused.total() > u64::from(u32::MAX / 2));
    }
    // OPEN and THROUGH unmet and met, the other three unmet, of either station.
    assert_eq!(kinds.len(), 14, "{kinds:?}");
    for seen in [full, running, guests, owed, waiting, given_up, large] {
        assert!(
            seen > 40,
            "{:?}",
            [full, running, guests, owed, waiting, given_up, large]
        );
    }
    assert!(shelves.iter().all(|&seen| seen > 10), "{shelves:?}");
    assert!(shelves[16] > 300, "{shelves:?}");
}

/// Two reasons at once, of which the first speaks.
#[test]
fn reasons_come_together() {
    let mut together = BTreeSet::new();
    for (call, answer, _) in (0..2).flat_map(made) {
        match call {
            Call::Store { name, position, .. } => {
                let no_position = Section::from_position(&position).is_err();
                together.insert((1, answer, is_name(&name), no_position));
            }
            Call::Fetch { name, buffer, .. } => {
                let short = buffer.len() < POSITION_LENGTH;
                together.insert((2, answer, is_name(&name), short));
            }
            Call::Step {
                position,
                answer: numbers,
                ..
            } => {
                let no_position = Section::from_position(&position).is_err();
                together.insert((3, answer, no_position, numbers.len() < 3));
            }
            _ => {}
        }
    }
    for expected in [
        (1, 5, false, true),
        (1, 24, false, true),
        (1, 25, true, true),
        (2, 5, false, true),
        (2, 24, false, true),
        (2, 24, true, true),
        (3, 26, true, true),
    ] {
        assert!(together.contains(&expected), "{expected:?}");
    }
}

/// What is wrong with the bytes of a position, where it can be told at sight.
fn damages_of(position: &[u8]) -> Vec<&'static str> {
    match position.len() {
        0 => return vec!["empty"],
        280 => return vec!["one less"],
        282 => return vec!["one more"],
        281 => {}
        _ => return vec!["short"],
    }
    let mut damages = Vec::new();
    let mut note = |damaged: bool, damage| damages.extend(damaged.then_some(damage));
    let places: Vec<&[u8]> = position[..240].chunks(10).collect();
    let gap = |pair: &[&[u8]]| pair[0] == [0; 10] && pair[1][0] > 0 && pair[1][1] > 0;
    note(places.windows(2).any(gap), "a gap");
    note(
        places.contains(&&[2, 0, 0, 0, 0, 0, 0, 0, 0, 0][..]),
        "an OPEN of zeros",
    );
    let kindless = |place: &&[u8]| place[0] == 0 && **place != [0; 10];
    note(places.iter().any(kindless), "no kind");
    note(places.iter().any(|place| place[5] == 2), "met is 2");
    note(position[240] == 2, "in force is 2");
    for desk in [253, 267] {
        let desk = &position[desk..desk + 14];
        note(desk[5] == 2, "running is 2");
        note(desk[8] == 2, "out is 2");
        note(
            desk[5] == 0 && desk[6..8] != [0, 0],
            "a minute of no interval",
        );
    }
    damages
}

/// What is wrong with the places of a shelf, where it can be told at sight.
fn damages_of_shelf(shelf: &[u8]) -> Vec<&'static str> {
    match shelf.len() {
        0 => return vec!["empty"],
        4_687 => return vec!["one less"],
        4_689 => return vec!["one more"],
        SHELF_LENGTH => {}
        _ => return vec!["short"],
    }
    let mut damages = Vec::new();
    let mut note = |damaged: bool, damage| damages.extend(damaged.then_some(damage));
    let used = places_of(shelf);
    let places: Vec<&[u8]> = shelf.chunks(SHELF_PLACE_LENGTH).collect();
    let names: BTreeSet<&[u8]> = places[..used].iter().map(|place| &place[..12]).collect();
    note(names.len() < used, "two names the same");
    let behind = places[used..].iter().any(|place| place[0] > 0);
    note(behind, "a gap");
    let nameless = |place: &&[u8]| place[0] == 0 && place.iter().any(|&byte| byte > 0);
    note(places.iter().any(nameless), "no name");
    let position = |place: &&[u8]| Section::from_position(&place[12..]).is_err();
    note(places.iter().any(position), "no position");
    note(
        places.iter().any(|place| place[12] == 2 && place[13] == 0),
        "an OPEN of zeros",
    );
    let letters = |place: &&[u8]| {
        !place[..12]
            .iter()
            .all(|&byte| byte == 0 || byte.is_ascii_uppercase())
    };
    note(places.iter().any(letters), "other letters");
    damages
}

#[test]
fn every_damage_is_among_them() {
    let mut positions = BTreeSet::new();
    let mut shelves = BTreeSet::new();
    for (call, answer, _) in (0..2).flat_map(made) {
        match (&call, answer) {
            (Call::Step { position, .. } | Call::Store { position, .. }, 26) => {
                positions.extend(damages_of(position));
            }
            (Call::Store { shelf, .. } | Call::Fetch { shelf, .. }, 5) => {
                shelves.extend(damages_of_shelf(shelf));
            }
            _ => {}
        }
    }
    let expected = [
        "a gap",
        "a minute of no interval",
        "an OPEN of zeros",
        "empty",
        "in force is 2",
        "met is 2",
        "no kind",
        "one less",
        "one more",
        "out is 2",
        "running is 2",
        "short",
    ];
    assert!(positions.iter().eq(&expected), "{positions:?}");
    let expected = [
        "a gap",
        "an OPEN of zeros",
        "empty",
        "no name",
        "no position",
        "one less",
        "one more",
        "other letters",
        "short",
        "two names the same",
    ];
    assert!(shelves.iter().eq(&expected), "{shelves:?}");
}

#[test]
fn every_bad_form_of_a_name_is_among_them() {
    let mut forms = BTreeSet::new();
    let mut neighbours = BTreeSet::new();
    for (call, answer, _) in (0..2).flat_map(made) {
        let (Call::Store { name, shelf, .. } | Call::Fetch { name, shelf, .. }) = &call else {
            continue;
        };
        if answer == 24 && !is_name(name) {
            forms.insert(match name.as_slice() {
                [] => "empty",
                [.., 0] => "a zero behind",
                name if name.contains(&0) => "a zero inside",
                name if name.iter().any(u8::is_ascii_lowercase) => "lower case",
                name if name.iter().any(u8::is_ascii_digit) => "a digit",
                name if name.iter().all(u8::is_ascii_uppercase) => "long",
                _ => "another",
            });
        } else if answer != 5 && is_name(name) {
            let used = shelf.chunks(SHELF_PLACE_LENGTH).map(|place| {
                let name = &place[..NAME_LENGTH];
                name.split(|&letter| letter == 0).next().unwrap_or(name)
            });
            for other in used.filter(|other| !other.is_empty() && other != name) {
                if other.starts_with(name) {
                    neighbours.insert((call.number(), answer, "begins one"));
                }
                if name.starts_with(other) {
                    neighbours.insert((call.number(), answer, "one begins it"));
                }
            }
        }
    }
    let expected = [
        "a digit",
        "a zero behind",
        "a zero inside",
        "another",
        "empty",
        "long",
        "lower case",
    ];
    assert!(forms.iter().eq(&expected), "{forms:?}");
    for neighbour in ["begins one", "one begins it"] {
        for (function, answer) in [(1, 0), (1, 25), (2, 0), (2, 24)] {
            assert!(neighbours.contains(&(function, answer, neighbour)));
        }
    }
}

#[test]
fn buffers_show_what_is_altered() {
    let mut lent = BTreeSet::new();
    for (call, answer, after) in made(0) {
        match (&call, &after) {
            (
                Call::Fetch { buffer, .. },
                Call::Fetch {
                    buffer: fetched, ..
                },
            ) => {
                assert!(buffer.iter().all(|&byte| byte != 0));
                assert_eq!(buffer != fetched, answer == 0);
                lent.insert((2, buffer.len().min(POSITION_LENGTH + 1)));
            }
            (
                Call::Step { answer: before, .. },
                Call::Step {
                    answer: numbers, ..
                },
            ) => {
                assert!(before.iter().all(|&number| number != 0));
                assert_eq!(before != numbers, answer == 0);
                lent.insert((3, numbers.len()));
            }
            (
                Call::Write {
                    bytes: before,
                    fields,
                },
                Call::Write { bytes, .. },
            ) => {
                assert!(before.iter().all(|&byte| byte != 0));
                assert_eq!(before != bytes, answer == 0);
                lent.insert((4, fields.len()));
            }
            (Call::Read { fields: before, .. }, Call::Read { fields, .. }) => {
                assert!(before.iter().all(|&number| number != 0));
                assert_eq!(before != fields, answer == 0);
                lent.insert((5, fields.len()));
            }
            _ => {}
        }
    }
    let of = |function: u8| {
        lent.iter()
            .filter(|(number, _)| *number == function)
            .count()
    };
    assert!(of(2) > 50, "{}", of(2));
    assert!(lent.contains(&(2, 280)) && lent.contains(&(2, 281)) && lent.contains(&(2, 282)));
    assert_eq!([of(3), of(4), of(5)], [6, 13, 13]);
}

#[test]
fn the_same_seed_gives_the_same_calls() {
    let input = |seed, count| -> Vec<u8> {
        let calls = Calls::new(seed).take(count);
        calls.flat_map(|call| call.input()).collect()
    };
    assert_eq!(input(7, 300), input(7, 300));
    assert!(input(7, 300).starts_with(&input(7, 200)));
    assert_ne!(input(7, 50), input(8, 50));
}

/// Reads the input and makes the calls, as another program has to.
fn run_input(mut input: &[u8]) -> Vec<u8> {
    fn take<'a>(input: &mut &'a [u8], length: usize) -> &'a [u8] {
        let (taken, rest) = input.split_at(length);
        *input = rest;
        taken
    }
    fn slice<const N: usize>(input: &mut &[u8]) -> Vec<[u8; N]> {
        let length = u32::from_be_bytes(take(input, 4).try_into().unwrap()) as usize;
        let elements = take(input, length * N).chunks_exact(N);
        elements.map(|bytes| bytes.try_into().unwrap()).collect()
    }
    fn bytes(input: &mut &[u8]) -> Vec<u8> {
        slice::<1>(input).concat()
    }
    let mut output = Vec::new();
    while !input.is_empty() {
        let function = take(&mut input, 1)[0];
        match function {
            1 | 2 => {
                let mut shelf = bytes(&mut input);
                let name = bytes(&mut input);
                let mut third = bytes(&mut input);
                let answer = if function == 1 {
                    store(&mut shelf, &name, &third)
                } else {
                    fetch(&shelf, &name, &mut third)
                };
                output.extend(answer.to_be_bytes());
                output.extend([shelf, name, third].concat());
            }
            3 => {
                let mut position = bytes(&mut input);
                let entry = bytes(&mut input);
                let mut numbers: Vec<u32> = slice(&mut input)
                    .into_iter()
                    .map(u32::from_be_bytes)
                    .collect();
                let answer = step_position(&mut position, &entry, &mut numbers);
                output.extend(answer.to_be_bytes());
                output.extend([position, entry].concat());
                output.extend(numbers.into_iter().flat_map(u32::to_be_bytes));
            }
            4 => {
                let fields: Vec<u16> = slice(&mut input)
                    .into_iter()
                    .map(u16::from_be_bytes)
                    .collect();
                let mut written = bytes(&mut input);
                output.extend(write_entry(&fields, &mut written).to_be_bytes());
                output.extend(fields.into_iter().flat_map(u16::to_be_bytes));
                output.extend(written);
            }
            5 => {
                let read = bytes(&mut input);
                let mut fields: Vec<u16> = slice(&mut input)
                    .into_iter()
                    .map(u16::from_be_bytes)
                    .collect();
                output.extend(read_entry(&read, &mut fields).to_be_bytes());
                output.extend(read);
                output.extend(fields.into_iter().flat_map(u16::to_be_bytes));
            }
            6 => {
                let length = entry_length(take(&mut input, 1)[0]) as u32;
                output.extend(length.to_be_bytes());
            }
            other => panic!("function {other}"),
        }
    }
    output
}

fn run_calls(arguments: &[&str]) -> Output {
    Command::new(env!("CARGO_BIN_EXE_calls"))
        .args(arguments)
        .output()
        .expect("the program runs")
}

#[test]
fn the_program_writes_calls_and_what_must_come_of_them() {
    let input = run_calls(&["3", "1500", "input"]);
    assert!(input.status.success());
    let calls = Calls::new(3).take(1_500);
    let bytes: Vec<u8> = calls.flat_map(|call| call.input()).collect();
    assert_eq!(input.stdout, bytes);
    let expected = run_calls(&["3", "1500", "expected"]);
    assert!(expected.status.success());
    assert!(expected.stdout == run_input(&input.stdout));
    assert_eq!(expected.stderr, b"");
    assert_eq!(run_calls(&["3", "0", "input"]).stdout, b"");
}

#[test]
fn a_bad_call_gives_one_line_of_usage() {
    let bad_calls: [&[&str]; 6] = [
        &[],
        &["1", "2"],
        &["1", "2", "output"],
        &["1", "x", "input"],
        &["-1", "2", "input"],
        &["1", "2", "input", "expected"],
    ];
    for arguments in bad_calls {
        let output = run_calls(arguments);
        assert_eq!(output.status.code(), Some(2), "{arguments:?}");
        assert_eq!(output.stdout, b"");
        assert_eq!(output.stderr, b"usage: calls SEED COUNT input|expected\n");
    }
}
