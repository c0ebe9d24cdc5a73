//! Whether the targets hold.

use crate::calls::{fail, library, room, Call};
use crate::cases::{cases, Case, Measured, Rival, Rivals, LIMIT_MS};
use crate::clock::rivals;
use crate::texts::{Kind, Spans, WORDS};
use compare::halves::{sum, wholes};

/// A measured figure, and the case it belongs to.
type Figure = (f64, Case);

/// What a figure may be.
enum Limit {
    AtMost(f64),
    AtLeast(f64),
}

impl Limit {
    /// Whether the figure keeps to the limit.
    fn allows(&self, figure: f64) -> bool {
        match *self {
            Limit::AtMost(most) => figure <= most,
            Limit::AtLeast(least) => least <= figure,
        }
    }

    /// The figure that comes nearest to breaking the limit, or breaks it most.
    fn worst(&self, figures: &[Figure]) -> f64 {
        let figures = figures.iter().map(|(figure, _)| *figure);
        match self {
            Limit::AtMost(_) => figures.fold(f64::MIN, f64::max),
            Limit::AtLeast(_) => figures.fold(f64::MAX, f64::min),
        }
    }
}

/// Prints a target with its worst figure, and the cases that miss it.
fn verdict(target: &str, limit: Limit, figures: Vec<Figure>) {
    let misses = figures.iter().filter(|(figure, _)| !limit.allows(*figure));
    let word = if misses.clone().count() == 0 { "holds" } else { "missed" };
    println!("- {target}: {word}, worst {:.2} of {} cases.", limit.worst(&figures), figures.len());
    for (figure, case) in misses {
        println!("  - {}: {figure:.2}", case.describe().replace(" |", ","));
    }
}

/// How many times as long as by hand each call takes.
fn against_hand(all: &[Measured]) -> Vec<Figure> {
    all.iter().map(|m| (m.ratio, m.case)).collect()
}

/// How many times as long as the front list one of NetBack's two forms takes, at least; past its limit it counts with the limit.
fn against_netback(all: &[Measured], form: fn(&Rivals) -> &Option<Rival>) -> Vec<Figure> {
    let times = |m: &Measured| {
        let rival = form(m.netback.as_ref()?);
        let times = rival.as_ref().map_or(LIMIT_MS / m.library, |rival| rival.times);
        Some((times, m.case))
    };
    all.iter().filter_map(times).collect()
}

/// How many times as long as the count alone the front list takes, into a list with room for any rows.
fn against_count() -> Vec<Figure> {
    let mut figures = Vec::new();
    for (kind, slots, high) in [(Kind::Random, 8, 3), (Kind::Zipf, 4, 63), (Kind::Equal, 2, 3), (Kind::Equal, 16, 63)] {
        for spans in [Spans::Loose, Spans::Tight] {
            let case = Case { kind, slots, high, spans, call: Call::Front };
            let (mut ready, rows) = case.compared(WORDS);
            let given = ready.given.clone();
            let mut lists = room(Call::Count, &given);
            let mut count = || library(Call::Count, &given, &mut lists);
            if count() != rows {
                fail(&format!("list and count differ: {}", case.describe()));
            }
            figures.push((rivals(|| ready.library(), count).ratio, case));
        }
    }
    figures
}

/// How many times as long as the tally, to which its numbers add up, the column takes.
fn against_tally() -> Vec<Figure> {
    let mut figures = Vec::new();
    for case in cases().into_iter().filter(|case| case.call == Call::Starts) {
        let (mut ready, _) = case.compared(WORDS);
        let given = ready.given.clone();
        let mut lists = room(Call::Tally, &given);
        let mut tally = || library(Call::Tally, &given, &mut lists);
        if tally() != sum(&wholes(&ready.lists.numbers)) {
            fail(&format!("column and tally differ: {}", case.describe()));
        }
        figures.push((rivals(|| ready.library(), tally).ratio, case));
    }
    figures
}

/// How many times as long as with a plain slot of as many words each call takes with an excluding one, for the same rows.
fn against_plain() -> Vec<Figure> {
    let mut figures = Vec::new();
    for case in cases() {
        let Kind::Excluding(listed) = case.kind else {
            continue;
        };
        let (mut ready, value) = case.compared(WORDS);
        let (mut plain, expected) = Case { kind: Kind::Plain(listed), ..case }.compared(WORDS);
        if value != expected || ready.lists != plain.lists {
            fail(&format!("excluding and plain slots differ: {}", case.describe()));
        }
        figures.push((rivals(|| ready.library(), || plain.library()).ratio, case));
    }
    figures
}

/// The milliseconds of the tally with 16 slots, gaps 0 to 63 and spans that bind.
fn tally_times(all: &[Measured]) -> Vec<Figure> {
    let binds = |m: &&Measured| {
        let Case { slots, high, spans, call, .. } = m.case;
        call == Call::Tally && slots == 16 && high == 63 && spans != Spans::Loose
    };
    all.iter().filter(binds).map(|m| (m.library, m.case)).collect()
}

/// Prints which targets hold, and what misses the others.
pub fn print(all: &[Measured]) {
    println!("\nTargets:\n");
    verdict("No call takes more than 1.5 times as long as by hand", Limit::AtMost(1.5), against_hand(all));
    verdict(
        "The front list is at least 5 times as fast as NetBack",
        Limit::AtLeast(5.0),
        against_netback(all, |rivals| &rivals.any),
    );
    verdict(
        "The same, NetBack with one visit to a node",
        Limit::AtLeast(5.0),
        against_netback(all, |rivals| &rivals.once),
    );
    verdict(
        "The front list, into a list with room for any rows, takes at most 1.3 times as long as the count",
        Limit::AtMost(1.3),
        against_count(),
    );
    verdict(
        "The tally with 16 slots, gaps 0–63 and spans that bind takes at most 500 ms",
        Limit::AtMost(500.0),
        tally_times(all),
    );
    verdict("The column takes at most 1.5 times as long as the tally", Limit::AtMost(1.5), against_tally());
    verdict(
        "With an excluding slot a call takes at most 1.1 times as long as with a plain one of as many words",
        Limit::AtMost(1.1),
        against_plain(),
    );
}
