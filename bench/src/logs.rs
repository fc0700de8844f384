//! The logs on which the programs are measured.

use second::double::generator as double;
use second::generator::log;

use crate::shared::sorts;

const LONGEST: usize = lupinshift::LONGEST_LOG;

/// A log and how often it is worked on in a round.
pub struct Case {
    /// One word, by which it is called for.
    pub name: &'static str,
    pub title: &'static str,
    pub log: Vec<u8>,
    pub times: u32,
}

pub fn cases() -> [Case; 4] {
    let [short, ..] = sorts(None);
    let [_, accepted, full] = sorts(Some(LONGEST));
    [
        Case {
            name: "300",
            title: "300 entries",
            log: log(1, 300, short),
            times: 100,
        },
        Case {
            name: "accepted",
            title: "65,536 accepted",
            log: log(1, LONGEST, accepted),
            times: 3,
        },
        Case {
            name: "zeros",
            title: "65,536 zero bytes",
            log: vec![0; LONGEST],
            times: 3,
        },
        Case {
            name: "full",
            title: "65,536 full section",
            log: log(1, LONGEST, full),
            times: 3,
        },
    ]
}

/// Logs of a double line, for the two listers of one.
pub fn double_cases() -> [Case; 3] {
    let whole = double::Options {
        bytes: Some(LONGEST),
        ..double::Options::default()
    };
    let accepted = double::Options {
        accepted: true,
        ..whole
    };
    let full = double::Options {
        full: true,
        ..whole
    };
    [
        Case {
            name: "double300",
            title: "double, 300 entries",
            log: double::log(1, 300, double::Options::default()),
            times: 1,
        },
        Case {
            name: "doubleaccepted",
            title: "double, accepted",
            log: double::log(1, LONGEST, accepted),
            times: 1,
        },
        Case {
            name: "doublefull",
            title: "double, full lines",
            log: double::log(1, LONGEST, full),
            times: 1,
        },
    ]
}
