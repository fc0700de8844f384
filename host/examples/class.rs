//! Plays the class of class.c through the wrapper, and prints the same.

use std::process::ExitCode;

use lupinshift::{
    at, class, desk, kind, map, station, vehicle, view, words, Entry, Order, Position, Shelf,
    VEHICLES,
};

/// Ends the class: a call was refused that should not be.
type Failure = String;

/// A train that leaves A by a clear day, at this minute.
fn train(time: u16) -> Entry {
    Entry {
        map: map::TRAIN,
        kind: kind::TRAIN,
        station: station::A,
        time,
        view: view::CLEAR_DAY,
        ..Entry::default()
    }
}

/// The first vehicle of the other station is received.
fn receive(station: u16, time: u16) -> Entry {
    Entry {
        map: map::RECEIVE,
        kind: kind::RECEIVE,
        station,
        time,
        sender: station::A + station::B - station,
        number: 1,
        ..Entry::default()
    }
}

fn opening() -> [Entry; 6] {
    let begin = Entry {
        map: map::BEGIN,
        kind: kind::BEGIN,
        ..Entry::default()
    };
    let open = Entry {
        map: map::OPEN,
        kind: kind::OPEN,
        class: class::LIGHT_ENGINE,
        asked: 3,
        ..train(10)
    };
    let back = Entry {
        map: map::RETURN | map::HAS_ASKED | map::HAS_GRANTED,
        kind: kind::RETURN,
        station: station::B,
        time: 75,
        asked: 2,
        granted: 3,
        ..Entry::default()
    };
    [
        begin,
        open,
        receive(station::B, 70),
        back,
        receive(station::A, 95),
        train(96),
    ]
}

/// A second train follows, first too soon.
fn follower() -> [Entry; 2] {
    [train(125), train(126)]
}

/// The second train is the last and takes the reply along; then there is no line
/// clear for a third.
fn last() -> [Entry; 2] {
    let last = Entry {
        map: map::LAST_TRAIN | map::HAS_GRANTED,
        kind: kind::LAST_TRAIN,
        granted: 2,
        ..train(126)
    };
    [last, train(156)]
}

fn main() -> ExitCode {
    match play_class() {
        Ok(()) => ExitCode::SUCCESS,
        Err(failure) => {
            eprintln!("class: {failure}");
            ExitCode::FAILURE
        }
    }
}

fn play_class() -> Result<(), Failure> {
    let mut section = Position::fresh();
    let mut shelf = Shelf::empty();
    play(&mut section, &opening())?;
    shelf
        .store("FIRSTAWAY", &section)
        .map_err(|refusal| failed("a store", refusal))?;
    println!("stored as FIRSTAWAY");
    let stood = section.clone();
    play(&mut section, &follower())?;
    section = shelf
        .fetch("FIRSTAWAY")
        .map_err(|refusal| failed("a fetch", refusal))?;
    println!("back at FIRSTAWAY");
    print_standing(&section);
    if section != stood {
        return Err("the class does not stand where it stood".to_owned());
    }
    play(&mut section, &last())
}

fn failed(what: &str, refusal: u32) -> Failure {
    format!("{what} is refused, {refusal}: {}", words(refusal))
}

fn play(section: &mut Position, lesson: &[Entry]) -> Result<(), Failure> {
    for entry in lesson {
        enter(section, entry)?;
    }
    print_standing(section);
    Ok(())
}

/// Builds the entry from its fields and steps the section with it.
fn enter(section: &mut Position, entry: &Entry) -> Result<(), Failure> {
    let bytes = entry
        .write()
        .map_err(|refusal| failed("writing an entry", refusal))?;
    let comes_of_it = match section.step(&bytes) {
        Ok(order) => in_words(entry, &order),
        Err(refusal @ 1..=22) => format!("refused, {refusal}: {}", words(refusal)),
        Err(refusal) => return Err(failed("a step", refusal)),
    };
    println!("{}: {comes_of_it}", named(entry));
    Ok(())
}

const fn letter(station: u16) -> char {
    if station == station::A {
        'A'
    } else {
        'B'
    }
}

fn named(entry: &Entry) -> String {
    const KINDS: [&str; 10] = [
        "",
        "BEGIN",
        "OPEN",
        "THROUGH",
        "RETURN",
        "TRAIN",
        "RECEIVE",
        "MEET",
        "RESUME",
        "LAST TRAIN",
    ];
    let mut name = KINDS[usize::from(entry.kind)].to_owned();
    if entry.has(map::HAS_STATION) {
        name += &format!(" at {}", letter(entry.station));
    }
    if entry.has(map::HAS_TIME) {
        name += &format!(", minute {}", entry.time);
    }
    if entry.has(map::HAS_ASKED) {
        name += &format!(", asks for {}", entry.asked);
    }
    if entry.has(map::HAS_GRANTED) {
        name += &format!(", grants {}", entry.granted);
    }
    if entry.has(map::HAS_FORM) {
        name += &format!(", form {}{}", letter(entry.sender), entry.number);
    }
    name
}

/// What the master hands over. An entry that is no departure has no forms.
fn in_words(entry: &Entry, order: &Order) -> String {
    if order.forms == 0 {
        return "accepted".to_owned();
    }
    let forms: Vec<&str> = order.form_names().collect();
    let form = format!("{}{}", letter(entry.station), order.number);
    format!("form {form} with {}, {}", forms.join(", "), order.speed)
}

/// Reads off the bytes where the class stands.
fn print_standing(section: &Position) {
    let bytes = section.as_bytes();
    let places = bytes[at::VEHICLES..].chunks(vehicle::LENGTH).take(VEHICLES);
    let present = places.take_while(|place| place[vehicle::KIND] != 0).count();
    let [a_holds, a_owes, b_holds, b_owes] = [
        at::DESK_A + desk::HOLDS,
        at::DESK_A + desk::OWES,
        at::DESK_B + desk::HOLDS,
        at::DESK_B + desk::OWES,
    ]
    .map(|at| bytes[at]);
    let count = &bytes[at::REFUSED_FOR_A..at::REFUSED_FOR_B];
    let refused = count
        .iter()
        .fold(0, |sum, &byte| sum << 8 | u32::from(byte));
    println!(
        "    in the section {present}; A holds {a_holds}, owes {a_owes}; B holds {b_holds}, owes {b_owes}; refused for A {refused}"
    );
}
