//! One client's calls for one pattern and one text, without a rewind, among calls and rewinds of others.

use std::rc::Rc;

use compare::brute::Row;
use compare::cases::clients::{
    accepted_request, any_request, interleaved, others_calls, plentiful_request, Asked, Request,
};
use compare::cases::random::any_cursors;
use compare::layout::Cursors;
use compare::rng::Rng;

use crate::desk::{follow, front_list, told};
use crate::run::Run;

/// The fewest pairs of rows, one given after the other, that must be held to rise.
const FEWEST: usize = 10_000;

/// Compares calls of each client for one pattern and one text, from fresh and from arbitrary states.
pub fn run(run: &mut Run) {
    let mut rng = Rng::new(69);
    let mut pairs = 0;
    for round in 0..1_000 {
        let client = round % 4 + 1;
        let draw = rng.pick(&[accepted_request, plentiful_request]);
        let request = Rc::new(draw(&mut rng));
        let given = from_fresh(run, &mut rng, client, &request);
        let cursors = any_cursors(&mut rng, 20);
        let others = rising(run, &mut rng, cursors, client, &request, 20);
        pairs += given.saturating_sub(1) + others.len().saturating_sub(1);
    }
    assert!(pairs >= FEWEST, "{pairs} pairs of rows are held to rise");
}

/// Compares some calls of a client for one request from a fresh state: how many rows it is given.
fn from_fresh(run: &mut Run, rng: &mut Rng, client: usize, request: &Rc<Request>) -> usize {
    let calls = rng.within(2, 30);
    let rows = rising(run, rng, Cursors::default(), client, request, calls);
    let front = front_list(&request.pattern, &request.text);
    // The client is given the front list row by row, as far as it calls, whatever the others call.
    assert_eq!(rows, front[..calls.min(front.len())], "{request:?}");
    rows.len()
}

/// Compares so many calls of a client for one request among others' calls, half of them for the same: the rows that the
/// library gives the client, each of which must rise above the one before at every slot.
fn rising(
    run: &mut Run,
    rng: &mut Rng,
    start: Cursors,
    client: usize,
    request: &Rc<Request>,
    calls: usize,
) -> Vec<Row> {
    let own = vec![(client, Asked::Next(request.clone())); calls];
    let mut others = others_calls(rng, client, 2 * calls, any_request);
    for (_, asked) in others.iter_mut().step_by(2) {
        *asked = Asked::Next(request.clone());
    }
    let list = interleaved(rng, &own, &others);
    let answers = told(client, &list, &follow(run, start, &list));
    let given = answers.iter().filter(|answer| answer.found == 1);
    let rows: Vec<Row> = given.map(|answer| answer.places[..request.pattern.count].to_vec()).collect();
    for pair in rows.windows(2) {
        // The client is given no place twice at the same slot: each is past the one before.
        let rises = pair[0].iter().zip(&pair[1]).all(|(place, later)| place < later);
        assert!(rises, "{pair:?} are given to client {client}\n{request:?}");
    }
    rows
}
