//! The listing of a log: lengths, and the figures of its last line.

use lupinshift::{
    end_into, figures, figures_into, list, list_into, listing_room, Figures, Listing, FIGURES,
    LONGEST_LINE, LONGEST_LOG,
};

use crate::scenes::{bytes_of, through, A_SENDS, BEGIN, RESUME};

#[test]
fn listing_lengths() {
    let zeros = vec![0; LONGEST_LOG + 1000];
    for bytes in [
        0,
        1,
        1000,
        LONGEST_LOG - 1,
        LONGEST_LOG,
        LONGEST_LOG + 1,
        zeros.len(),
    ] {
        let log = &zeros[..bytes];
        let mut room = vec![0; listing_room(bytes)];
        let length = list_into(log, &mut room).expect("just the room");
        assert!(list_into(log, &mut room[1..]).is_none(), "a byte less");
        assert_eq!(list(log), room[..length], "in the wrapper's own blocks");
    }
    let mut line = [0; LONGEST_LINE];
    assert!(end_into(&zeros[..1], &mut line).is_some());
    assert!(end_into(&zeros[..1], &mut line[1..]).is_none());
    let mut places = [0; FIGURES];
    assert_eq!(figures_into(&zeros[..1], &mut places), Some(FIGURES));
    assert_eq!(figures_into(&zeros[..1], &mut places[1..]), None);
    assert!(figures(&zeros[..LONGEST_LOG]).is_some());
    assert!(figures(&zeros[..=LONGEST_LOG]).is_none());
}

#[test]
fn the_same_listing_in_blocks() {
    let log: Vec<u8> = A_SENDS.iter().flat_map(|entry| bytes_of(entry)).collect();
    let (mut written, mut filled) = (Vec::new(), Vec::new());
    let mut listing = Listing::new(&log);
    let mut block = [0; LONGEST_LINE];
    assert_eq!(listing.fill(&mut block[1..]), 0, "a byte less");
    loop {
        match listing.fill(&mut block) {
            0 => break,
            length => filled.extend_from_slice(&block[..length]),
        }
    }
    Listing::new(&log)
        .write_to(&mut written)
        .expect("a Vec takes all");
    assert_eq!(written, list(&log));
    assert_eq!(filled, list(&log));
}

/// Before BEGIN 2 entries of x, 4 of y and 5 of no station are refused. Then x
/// asks for 8, y answers with 8 and asks for 7, and x sends a train that grants
/// 3: 6 entries are accepted, one vehicle is present, x holds 7 and owes 3, y
/// holds none and owes 8.
fn ten_figures(x: u8, y: u8) -> Vec<u8> {
    let mut log = [through(x, 0), through(x, 0)].concat();
    log.extend([through(y, 0); 4].concat());
    log.extend(bytes_of(RESUME).repeat(5));
    log.extend(bytes_of(BEGIN));
    log.extend([0x3F, 2, x, 0, 0, 1, 1, 8]);
    log.extend([0x87, 6, y, 0, 9, x, 0, 1]);
    log.extend([0x67, 4, y, 0, 9, 7, 8]);
    log.extend([0x87, 6, x, 0, 9, y, 0, 1]);
    log.extend([0x4F, 5, x, 0, 9, 1, 3]);
    log
}

const TRAIN_FROM_A: Figures = Figures {
    entries: 17,
    accepted: 6,
    refused_for_a: 2,
    refused_for_b: 4,
    refused_of_none: 5,
    present: 1,
    a_holds: 7,
    a_owes: 3,
    b_holds: 0,
    b_owes: 8,
};

const TRAIN_FROM_B: Figures = Figures {
    refused_for_a: 4,
    refused_for_b: 2,
    a_holds: 0,
    a_owes: 8,
    b_holds: 7,
    b_owes: 3,
    ..TRAIN_FROM_A
};

#[test]
fn figures_by_name() {
    for (log, wanted) in [
        (ten_figures(1, 2), TRAIN_FROM_A),
        (ten_figures(2, 1), TRAIN_FROM_B),
    ] {
        assert_eq!(figures(&log), Some(wanted));
        let mut places = [0; FIGURES];
        figures_into(&log, &mut places);
        assert_eq!(wanted.in_order(), places);
    }
}
