//! Lists of calls of the four clients, from fresh and from arbitrary states.

use compare::brute::{Brute, Row};
use compare::cases::clients::{any_calls, Asked, Called};
use compare::cases::random::any_cursors;
use compare::ffi;
use compare::layout::{Cursors, Found, Pattern, Served};
use compare::rng::Rng;

use crate::both::{rewind, Both};
use crate::run::Run;
use crate::{desk_isolation, desk_quota, desk_rising};

/// Compares lists of calls.
pub fn run(run: &mut Run) {
    let mut rng = Rng::new(66);
    for _ in 0..600 {
        follow(run, Cursors::default(), &any_calls(&mut rng, 60));
    }
    for _ in 0..3_000 {
        let cursors = any_cursors(&mut rng, 20);
        follow(run, cursors, &any_calls(&mut rng, 10));
    }
    desk_isolation::run(run);
    desk_rising::run(run);
    desk_quota::run(run);
}

/// Compares a list of calls, each from the state before it, and gives what the library answers to each.
pub fn follow(run: &mut Run, mut cursors: Cursors, calls: &[Called]) -> Vec<Served> {
    run.input();
    let mut answers = Vec::new();
    for (client, asked) in calls {
        let served = match asked {
            Asked::Next(request) => {
                Both { run, brute: Brute::enumerated(&request.pattern, &request.text) }.next(&cursors, *client)
            }
            Asked::Rewind => rewind(run, &cursors, *client),
        };
        assert_others_kept(*client, &cursors, &served.cursors);
        cursors = served.cursors;
        answers.push(served);
    }
    answers
}

/// Asserts that a call of this client has left the entries of all others as they were.
fn assert_others_kept(client: usize, before: &Cursors, after: &Cursors) {
    for at in (0..4).filter(|at| at + 1 != client) {
        // A call writes to its own client's entry at most, and to none if there is no such client.
        assert_eq!(after.clients[at], before.clients[at], "client {} after a call of {client}", at + 1);
    }
}

/// The answers to the calls of this client, without the state beside them.
pub fn told(client: usize, calls: &[Called], served: &[Served]) -> Vec<Found> {
    let own = calls.iter().zip(served).filter(|((caller, _), _)| *caller == client);
    own.map(|(_, &Served { number, place, found, places, .. })| Found { number, place, found, places }).collect()
}

/// The library's own front list of a pattern and a text that it accepts.
pub fn front_list(pattern: &Pattern, text: &[u16]) -> Vec<Row> {
    let mut entries = vec![0; text.len() * pattern.count];
    let answer = ffi::leftmost(pattern, text, &mut entries);
    assert_eq!(answer.number, 0, "leftmost is refused\npattern: {pattern:?}");
    entries.chunks(pattern.count).take(answer.value as usize).map(<[u16]>::to_vec).collect()
}
