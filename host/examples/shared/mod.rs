//! What the comparison and the benchmark share: the sorts of generated logs,
//! and what the second program makes of a log.

use lupinshift::Figures;
use second::generator::Options;
use second::{Reader, Refusal, Run};

/// Logs as they come, of accepted entries alone, and in a full section; all of
/// so many bytes, if that is given.
pub fn sorts(bytes: Option<usize>) -> [Options; 3] {
    let plain = Options {
        bytes,
        ..Options::default()
    };
    let accepted = Options {
        accepted: true,
        ..plain
    };
    let full = Options {
        full: true,
        ..plain
    };
    [plain, accepted, full]
}

/// The figures of a log's last line.
pub fn figures_of(log: &[u8]) -> Figures {
    let mut run = Run::new(log);
    let entries = run.by_ref().count() as u64;
    let section = run.section();
    let [a, b] = &section.desks;
    Figures {
        entries,
        accepted: entries - section.refused.total(),
        refused_for_a: section.refused.for_a.into(),
        refused_for_b: section.refused.for_b.into(),
        refused_of_none: section.refused.of_none.into(),
        present: section.present as u64,
        a_holds: a.holds.into(),
        a_owes: a.owes.into(),
        b_holds: b.holds.into(),
        b_owes: b.owes.into(),
    }
}

/// How many entries of a log are taken.
pub fn taken_of(log: &[u8]) -> usize {
    let mut reader = Reader::new(log);
    let mut taken = 0;
    while let Some(read) = reader.read() {
        match read {
            Ok(_) => taken += 1,
            Err(Refusal::Cut) => break,
            Err(_) => {}
        }
    }
    taken
}
