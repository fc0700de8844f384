//! What the generator reaches, and the generator as a program.

use std::collections::{BTreeMap, BTreeSet};
use std::process::{Command, Output};
use std::sync::LazyLock;

use second::generator::{log, Generator, Options};
use second::{
    entry_length, list, Accepted, Desk, Edition, Entry, Kind, Line, Refusal, Run, Section, Speed,
    Station, Vehicle, LONGEST_LOG,
};

/// Logs of the lister's size: these six have to be enough for all claims.
static LOGS: LazyLock<Vec<Vec<u8>>> = LazyLock::new(|| {
    (0..6)
        .map(|seed| lister_sized(seed, Options::default()))
        .collect()
});

fn lister_sized(seed: u64, options: Options) -> Vec<u8> {
    let options = Options {
        bytes: Some(LONGEST_LOG),
        ..options
    };
    log(seed, LONGEST_LOG, options)
}

/// Any entries or accepted ones alone, in any section or a full one.
fn four_ways() -> [Options; 4] {
    let ways = [(false, false), (false, true), (true, false), (true, true)];
    ways.map(|(accepted, full)| Options {
        accepted,
        full,
        ..Options::default()
    })
}

fn for_each_line(log: &[u8], mut look: impl FnMut(&Section, &Line, &Section)) {
    let mut run = Run::new(log);
    let mut before = run.section().clone();
    while let Some(line) = run.next() {
        look(&before, &line, run.section());
        before = run.section().clone();
    }
}

#[test]
fn every_refusal_but_18_is_reached_within_the_listers_size() {
    let mut seen = BTreeSet::new();
    for log in LOGS.iter() {
        assert_eq!(log.len(), LONGEST_LOG);
        let mut accepted = 0;
        let mut refused = 0;
        for line in Run::new(log) {
            match line.answer {
                Ok(_) => accepted += 1,
                Err(refusal) => {
                    refused += 1;
                    seen.insert(refusal.number());
                }
            }
        }
        assert!(accepted > 3 * refused, "most are to be accepted");
        assert!(refused > 500, "many are to be refused");
    }
    // 5 and 23 are not for a log from the fresh section.
    let expected: BTreeSet<u8> = (1..=22)
        .filter(|number| ![5, 18].contains(number))
        .collect();
    assert_eq!(seen, expected);
}

#[test]
fn a_worn_log_reaches_18() {
    for seed in 0..3 {
        let options = Options {
            worn: true,
            ..Options::default()
        };
        let log = log(seed, 400, options);
        let used_up = Run::new(&log)
            .filter(|line| line.answer == Err(Refusal::FormsUsedUp))
            .count();
        let last_given =
            Run::new(&log).any(|line| matches!(line.answer, Ok(Accepted { form: 9_999, .. })));
        assert!(used_up > 0 && last_given, "seed {seed}");
    }
}

#[test]
fn a_full_section_is_kept_full() {
    for options in four_ways().into_iter().filter(|options| options.full) {
        let (mut full, mut states) = (0, 0);
        for_each_line(&lister_sized(1, options), |_, _, after| {
            states += 1;
            full += u32::from(after.present >= 22);
        });
        assert!(2 * full > states, "{full} of {states}");
    }
}

/// What a good set of logs has come by, one name for each.
fn places_come_by(before: &Section, line: &Line, after: &Section) -> Vec<String> {
    let mut names = Vec::new();
    let mut name = |reached: bool, what: &str| {
        if reached {
            names.push(what.to_owned());
        }
    };
    for station in Station::BOTH {
        let desk = after.desk(station);
        let letter = station.letter();
        name(desk.guest > 0, &format!("guest {} at {letter}", desk.guest));
        name(desk.holds == 8, &format!("{letter} holds 8"));
        name(desk.owes == 8, &format!("{letter} owes 8"));
        name(desk.asked == 8, &format!("{letter} is asked for 8"));
        name(desk.waiting == 8, &format!("8 wait at {letter}"));
        let waited = before.desk(station).waiting;
        let moved = waited > 0 && desk.waiting == 0 && desk.holds == waited;
        name(moved, &format!("{letter} holds what waited"));
        name(
            desk.clock == u16::MAX,
            &format!("{letter} at the last minute"),
        );
        name(desk.last_form > 255, &format!("forms of {letter} over 255"));
        let twelve = after.sent_by(station).count() == 12;
        name(twelve, &format!("12 of {letter}"));
    }
    name(after.present == 24, "24 vehicles");
    if let (Some(entry), Ok(accepted)) = (line.entry, line.answer) {
        name_entry(&entry, accepted, before, &mut name);
    }
    names
}

fn name_entry(
    entry: &Entry,
    accepted: Accepted,
    before: &Section,
    name: &mut impl FnMut(bool, &str),
) {
    let kind = Kind::from_number(entry.kind).unwrap();
    let station = Station::from_number(entry.station).unwrap_or(Station::A);
    let desk = before.desk(station);
    match kind {
        Kind::Open | Kind::Through => {
            name(true, &format!("{kind:?} in view {}", entry.view));
        }
        Kind::Return => name(true, &format!("Return: {}", messages(entry))),
        Kind::Train | Kind::LastTrain => name_train(kind, entry, accepted, desk, name),
        Kind::Meet => {
            let named = before
                .vehicles()
                .iter()
                .position(|vehicle| vehicle.sender == entry.sender && vehicle.form == entry.form);
            let place = named.unwrap();
            let (nearer_a, nearer_b) = (before.vehicles()[place], before.vehicles()[place + 1]);
            name(nearer_a.sender == nearer_b.sender, "meeting of one sender");
            name(nearer_a.met && nearer_b.met, "meeting of two that met");
            name(true, &format!("meeting towards {}", station.letter()));
        }
        Kind::Receive => name_receipt(entry, desk, before.nearest(station).unwrap(), name),
        Kind::Resume => {
            let owes = before.desks.iter().any(|desk| desk.owes > 0);
            name(owes, "resumed though a clear is owed");
            let waits = before.desks.iter().any(|desk| desk.waiting > 0);
            name(waits, "resumed though clears wait");
        }
        Kind::Begin => name(before.refused.total() > 0, "begun with refusals counted"),
    }
}

/// What rides along.
fn messages(entry: &Entry) -> String {
    let some = |figure: u8| if figure > 0 { "some" } else { "no" };
    let (asks, grants) = (some(entry.asked), some(entry.granted));
    format!("{asks} asked, {grants} granted")
}

/// At the desk as it was before it.
fn name_train(
    kind: Kind,
    entry: &Entry,
    accepted: Accepted,
    desk: &Desk,
    name: &mut impl FnMut(bool, &str),
) {
    name(true, &format!("{kind:?}: {}", messages(entry)));
    name(
        true,
        &format!("{kind:?} in view {}, {}", entry.view, accepted.speed),
    );
    name(
        desk.holds == 1 && desk.sent == 7,
        "eighth train of a series",
    );
    if kind == Kind::LastTrain {
        let held = format!("{} held, and the last train leaves", desk.holds);
        name(true, &held);
    } else {
        let ahead = entry.granted > 0 && desk.holds > 1;
        name(ahead, "a reply ahead of the last train");
        let with_the_last = entry.granted > 0 && desk.holds == 1;
        name(with_the_last, "a reply with the last train");
    }
}

/// At the desk as it was before it, of the vehicle that then stood nearest.
fn name_receipt(entry: &Entry, desk: &Desk, nearest: &Vehicle, name: &mut impl FnMut(bool, &str)) {
    let own = entry.station == entry.sender;
    let left_on = nearest.left_on.unwrap();
    name(own, &format!("own {left_on:?} back, met {}", nearest.met));
    name(
        !own,
        &format!("{left_on:?} of the other, met {}", nearest.met),
    );
    let train = left_on.is_train();
    let stale = train && nearest.asked == 0 && desk.asked > 0;
    name(stale, "an enquiry outlives a train without one");
    let asks_more = train && nearest.asked > 0 && desk.waiting > 0;
    name(asks_more, "an enquiry comes in while clears wait");
    if left_on == Kind::LastTrain {
        let released = desk.waiting > 0 && nearest.granted == 0;
        name(released, "the last train releases what waits");
        let brings = nearest.granted > 0 && desk.owes > 1;
        name(brings, "what the last train brings is held at once");
        name(
            true,
            &format!("{} given up, {} owed", nearest.given_up, desk.owes),
        );
    }
}

fn places_wished_for() -> BTreeSet<String> {
    let mut wished = BTreeSet::new();
    for letter in ["A", "B"] {
        for class in 1..=5 {
            wished.insert(format!("guest {class} at {letter}"));
        }
        wished.insert(format!("{letter} holds 8"));
        wished.insert(format!("{letter} owes 8"));
        wished.insert(format!("{letter} is asked for 8"));
        wished.insert(format!("8 wait at {letter}"));
        wished.insert(format!("{letter} holds what waited"));
        wished.insert(format!("{letter} at the last minute"));
        wished.insert(format!("forms of {letter} over 255"));
        wished.insert(format!("12 of {letter}"));
        wished.insert(format!("meeting towards {letter}"));
    }
    for view in 1..=3 {
        wished.insert(format!("Open in view {view}"));
        wished.insert(format!("Through in view {view}"));
        let follower = if view == 1 { "25/10" } else { "10/10" };
        for kind in ["Train", "LastTrain"] {
            wished.insert(format!("{kind} in view {view}, {}", Speed::Booked));
            wished.insert(format!("{kind} in view {view}, {follower}"));
        }
    }
    for asks in ["no", "some"] {
        for grants in ["no", "some"] {
            wished.insert(format!("Return: {asks} asked, {grants} granted"));
            wished.insert(format!("Train: {asks} asked, {grants} granted"));
            wished.insert(format!("LastTrain: {asks} asked, {grants} granted"));
        }
    }
    for kind in ["Open", "Through"] {
        for met in [false, true] {
            wished.insert(format!("own {kind} back, met {met}"));
            wished.insert(format!("{kind} of the other, met {met}"));
        }
    }
    for held in 1..=8 {
        wished.insert(format!("{held} held, and the last train leaves"));
        // From the fresh section on, what is given up and the train itself are all
        // that is owed when the last train comes in.
        wished.insert(format!("{} given up, {held} owed", held - 1));
    }
    let others = [
        "24 vehicles",
        "eighth train of a series",
        "meeting of one sender",
        "meeting of two that met",
        "Return of the other, met false",
        "Train of the other, met false",
        "LastTrain of the other, met false",
        "the last train releases what waits",
        "what the last train brings is held at once",
        "an enquiry outlives a train without one",
        "a reply ahead of the last train",
        "a reply with the last train",
        "an enquiry comes in while clears wait",
        "resumed though a clear is owed",
        "resumed though clears wait",
        "begun with refusals counted",
    ];
    wished.extend(others.map(str::to_owned));
    wished
}

#[test]
fn deep_states_are_reached() {
    let mut reached = BTreeSet::new();
    for log in LOGS.iter() {
        for_each_line(log, |before, line, after| {
            reached.extend(places_come_by(before, line, after));
        });
    }
    let wished = places_wished_for();
    let missed: Vec<_> = wished.difference(&reached).collect();
    let unforeseen: Vec<_> = reached.difference(&wished).collect();
    assert!(missed.is_empty(), "missed {missed:?}");
    assert!(unforeseen.is_empty(), "unforeseen {unforeseen:?}");
}

/// Whether line clears wait in some state of a log.
fn clears_wait_in(log: &[u8]) -> bool {
    let mut wait = false;
    for_each_line(log, |_, _, after| {
        wait |= after.desks.iter().any(|desk| desk.waiting > 0);
    });
    wait
}

/// How many logs of 300 entries have line clears waiting.
fn logs_with_clears_waiting(seeds: impl Iterator<Item = u64>, options: Options) -> usize {
    seeds
        .filter(|&seed| clears_wait_in(&log(seed, 300, options)))
        .count()
}

#[test]
fn clears_wait_in_most_logs_and_in_most_accepted_logs() {
    let accepted = Options {
        accepted: true,
        ..Options::default()
    };
    let many = logs_with_clears_waiting(1..=48, Options::default());
    assert!(many > 32, "{many} of 48");
    let many = logs_with_clears_waiting(101..=108, accepted);
    assert!(many > 4, "{many} of 8");
    let many = logs_with_clears_waiting(1..=48, accepted);
    assert!(many > 32, "{many} of 48");
}

/// Whether line clears are given up in some state of a log.
fn clears_given_up_in(log: &[u8]) -> bool {
    let mut given_up = false;
    for_each_line(log, |_, _, after| {
        given_up |= after.vehicles().iter().any(|vehicle| vehicle.given_up > 0);
    });
    given_up
}

/// How many logs of 300 entries have line clears given up.
fn logs_with_clears_given_up(seeds: impl Iterator<Item = u64>, accepted: bool) -> usize {
    let options = Options {
        accepted,
        ..Options::default()
    };
    seeds
        .filter(|&seed| clears_given_up_in(&log(seed, 300, options)))
        .count()
}

#[test]
fn clears_are_given_up_in_most_logs_and_in_most_accepted_logs() {
    let many = logs_with_clears_given_up(1..=48, false);
    assert!(many > 32, "{many} of 48");
    let many = logs_with_clears_given_up(101..=108, true);
    assert!(many > 4, "{many} of 8");
    let many = logs_with_clears_given_up(1..=48, true);
    assert!(many > 32, "{many} of 48");
}

/// The refusals of bytes whose kind is 9, with how often each comes.
fn refused_last_trains_in(log: &[u8], found: &mut BTreeMap<u8, usize>) {
    let mut rest = log;
    for line in Run::new(log) {
        let (bytes, behind) = rest.split_at(entry_length(rest[0]).min(rest.len()));
        rest = behind;
        if let (&[map, 9, ..], Err(refusal)) = (bytes, line.answer) {
            if map & 1 != 0 {
                *found.entry(refusal.number()).or_default() += 1;
            }
        }
    }
}

/// 17 is not for a log: what is held came with a receipt, which let the count of
/// departures start again, and the trains that it is for are eight at most.
#[test]
fn last_trains_are_refused_for_every_reason() {
    let mut found = BTreeMap::new();
    for log in LOGS.iter() {
        refused_last_trains_in(log, &mut found);
    }
    for number in [3, 4, 7, 9, 15, 16, 19] {
        let times = found.get(&number).copied().unwrap_or(0);
        assert!(times > 5, "{number}: {times}");
    }
    let options = Options {
        worn: true,
        ..Options::default()
    };
    for seed in 0..12 {
        refused_last_trains_in(&log(seed, 400, options), &mut found);
        refused_last_trains_in(&log(seed, 300, Options::default()), &mut found);
    }
    let numbers: Vec<u8> = found.into_keys().collect();
    assert_eq!(numbers, [1, 3, 4, 7, 9, 15, 16, 18, 19]);
}

/// What is made by document 01's own step is also accepted by today's, no line
/// clear waits in it, and no train is endorsed as the last.
#[test]
fn a_log_by_document_01_is_accepted_and_has_nothing_waiting() {
    let mut grants = 0;
    for seed in 0..20 {
        let options = Options {
            accepted: true,
            edition: Edition::Document01,
            ..Options::default()
        };
        let log = log(seed, 300, options);
        assert!(!clears_wait_in(&log), "seed {seed}");
        for line in Run::new(&log) {
            assert!(line.answer.is_ok(), "seed {seed}");
            assert_ne!(line.kind(), 9, "seed {seed}");
            grants += line.entry.map_or(0, |entry| u32::from(entry.granted > 0));
        }
    }
    assert!(grants > 100, "{grants}");
}

/// How many RETURNs of a log are refused at a desk that holds line clears and has no
/// guest, each with 14.
fn returns_while_holding_in(log: &[u8]) -> usize {
    let mut returns = 0;
    for_each_line(log, |before, line, _| {
        let Some(station) = line.station() else {
            return;
        };
        let desk = before.desk(station);
        let barred = line.answer == Err(Refusal::NoGuest);
        if line.kind() == Kind::Return.number() && desk.holds > 0 && barred {
            assert_eq!(desk.guest, 0);
            returns += 1;
        }
        // 11 is for engines alone.
        if line.answer == Err(Refusal::HoldsLineClear) {
            assert!([2, 3].contains(&line.kind()));
        }
    });
    returns
}

#[test]
fn returns_are_tried_now_and_then_while_line_clears_are_held() {
    let logs = (1..=48).map(|seed| log(seed, 300, Options::default()));
    let many = logs.filter(|log| returns_while_holding_in(log) > 0).count();
    assert!(many > 6, "{many} of 48");
    for log in LOGS.iter() {
        assert!(returns_while_holding_in(log) > 5);
    }
}

/// T-08 alters no log: with the section worked by the step before it, the generator
/// looks at the same section and draws the same entries. Nor does the option for lists.
#[test]
fn logs_are_as_they_were_before_t_08() {
    for options in four_ways() {
        let before = Options {
            edition: Edition::BeforeT08,
            returns_while_holding: true,
            ..options
        };
        for seed in 0..24 {
            let is_same = log(seed, 300, options) == log(seed, 300, before);
            assert!(is_same, "seed {seed}");
        }
    }
}

/// The steps of a list in which RETURNs are tried while line clears are held; none
/// where only accepted entries are wished for.
#[test]
fn lists_have_many_returns_while_line_clears_are_held() {
    for accepted in [false, true] {
        let options = Options {
            accepted,
            returns_while_holding: true,
            ..Options::default()
        };
        let (mut holding, mut returns) = (0, 0);
        for seed in 0..10 {
            let mut generator = Generator::new(seed, options);
            for _ in 0..300 {
                let desks = generator.section().desks;
                let bytes = generator.next_step();
                holding += u32::from(desks.iter().any(|desk| desk.holds > 0));
                if let &[_, 4, station @ (1 | 2), ..] = &bytes[..] {
                    let desk = desks[usize::from(station - 1)];
                    returns += u32::from(desk.holds > 0);
                }
            }
        }
        assert!(holding > 200, "{holding}");
        let expected = if accepted {
            0..1
        } else {
            holding / 10..holding / 3
        };
        assert!(expected.contains(&returns), "{returns} of {holding}");
    }
}

#[test]
fn every_log_is_listed_line_by_line() {
    for log in LOGS.iter() {
        let listing = list(log);
        let run: Vec<Line> = Run::new(log).collect();
        assert_eq!(listing.lines().count(), run.len() + 1);
        let accepted = run.iter().filter(|line| line.answer.is_ok()).count();
        let end = listing.lines().last().unwrap();
        let figures: Vec<usize> = end
            .strip_prefix("end ")
            .unwrap()
            .split(' ')
            .map(|figure| figure.parse().unwrap())
            .collect();
        assert_eq!(figures.len(), 10);
        assert_eq!(figures[..2], [run.len(), accepted]);
        assert_eq!(figures[0], figures[1..5].iter().sum::<usize>());
    }
}

/// The room that hosts lend for a listing is 25 bytes for each byte of the log, and
/// 214 for the last line. A line of an accepted entry, which has two bytes or more,
/// takes 28 at most, one of a refused entry 16; each counts its line feed.
#[track_caller]
fn fits_the_room_lent(log: &[u8]) {
    let listing = list(log);
    assert!(listing.len() <= 25 * log.len() + 214);
    let lines: Vec<&str> = listing.split_inclusive('\n').collect();
    let (end, lines) = lines.split_last().unwrap();
    assert!(end.len() <= 214, "{end}");
    for line in lines {
        let most = if line.contains(" ok ") { 28 } else { 16 };
        assert!(line.len() <= most, "{line}");
    }
}

#[test]
fn every_listing_fits_the_room_that_hosts_lend() {
    for log in LOGS.iter() {
        fits_the_room_lent(log);
    }
    for options in four_ways() {
        fits_the_room_lent(&lister_sized(7, options));
        for entries in 0..60 {
            fits_the_room_lent(&log(entries, entries as usize, options));
        }
    }
    // The shortest entries that are accepted, and the shortest of all.
    fits_the_room_lent(&[0x01, 1, 0x01, 8].repeat(LONGEST_LOG / 4));
    fits_the_room_lent(&[0].repeat(LONGEST_LOG));
}

/// The refusals whose count is easily mistaken, by what the bytes show: with 7 the
/// kind and the station, with 22 the station that the MEET names, with 1 and 4
/// the station, which is not counted. None where the count is plain.
fn easily_miscounted(refusal: u8, bytes: &[u8]) -> Option<String> {
    let &[map, kind, station, ..] = bytes else {
        return None;
    };
    let letter = Station::from_number(station)?.letter();
    let meets = kind == Kind::Meet.number();
    match refusal {
        7 if meets => Some(format!("7 of a MEET naming {letter}")),
        7 => Some(format!("7 of {letter}")),
        22 => Some(format!("22 of a MEET naming {letter}")),
        1 | 4 if map & 3 == 3 => Some(format!("{refusal} showing {letter}")),
        _ => None,
    }
}

/// How often each of them stands in a log.
fn easily_miscounted_in(log: &[u8]) -> BTreeMap<String, usize> {
    let mut found = BTreeMap::new();
    let mut rest = log;
    for line in Run::new(log) {
        let (bytes, behind) = rest.split_at(entry_length(rest[0]).min(rest.len()));
        rest = behind;
        if let Err(refusal) = line.answer {
            if let Some(name) = easily_miscounted(refusal.number(), bytes) {
                *found.entry(name).or_default() += 1;
            }
        }
    }
    found
}

#[test]
fn refusals_that_are_easily_miscounted_come_often() {
    let mut found: BTreeMap<String, usize> = BTreeMap::new();
    for seed in 1..=48 {
        for (name, times) in easily_miscounted_in(&log(seed, 300, Options::default())) {
            *found.entry(name).or_default() += times;
        }
    }
    for letter in ["A", "B"] {
        for (sort, least) in [
            ("7 of a MEET naming", 3),
            ("7 of", 20),
            ("22 of a MEET naming", 50),
            ("1 showing", 3),
            ("4 showing", 30),
        ] {
            let name = format!("{sort} {letter}");
            let times = found.get(&name).copied().unwrap_or(0);
            assert!(times >= least, "{name}: {times}");
        }
    }
}

/// A log of some length tells the three counts apart.
#[test]
fn every_count_grows_in_every_log() {
    for seed in 1..=48 {
        let log = log(seed, 300, Options::default());
        let refused = Run::new(&log).finish().refused;
        let counts = [refused.for_a, refused.for_b, refused.of_none];
        assert!(!counts.contains(&0), "seed {seed}: {refused:?}");
    }
}

fn run_gen(arguments: &[&str]) -> Output {
    Command::new(env!("CARGO_BIN_EXE_gen"))
        .args(arguments)
        .output()
        .expect("the generator runs")
}

#[test]
fn the_program_writes_the_log_of_its_arguments() {
    let output = run_gen(&["7", "100"]);
    assert!(output.status.success());
    assert_eq!(output.stdout, log(7, 100, Options::default()));
    let output = run_gen(&["7", "100", "--accepted", "--bytes", "300", "--full"]);
    let options = Options {
        accepted: true,
        full: true,
        bytes: Some(300),
        ..Options::default()
    };
    assert_eq!(output.stdout, log(7, 100, options));
    let output = run_gen(&["7", "100", "--worn"]);
    assert!(output.stdout.len() > 2 * LONGEST_LOG);
}

#[test]
fn a_bad_call_gives_one_line_of_usage() {
    let bad_calls: [&[&str]; 7] = [
        &[],
        &["1"],
        &["one", "2"],
        &["1", "2", "3"],
        &["1", "2", "--bytes"],
        &["1", "-2"],
        &["1", "2", "--double", "--worn"],
    ];
    for arguments in bad_calls {
        let output = run_gen(arguments);
        assert!(!output.status.success(), "{arguments:?}");
        assert_eq!(output.stdout, b"");
        let message = String::from_utf8(output.stderr).unwrap();
        assert!(message.starts_with("usage: gen SEED ENTRIES"));
        assert_eq!(message.lines().count(), 1);
    }
}
