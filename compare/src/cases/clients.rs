//! Calls of the four clients at random, in any order, and states of the cursors with numbers put down.

use std::rc::Rc;

use super::random::{any_pattern, any_text, break_pattern, Kind};
use super::Words::But;
use super::{alike, pattern, ANY_SPAN};
use crate::layout::{Client, Cursors, Pattern};
use crate::rng::Rng;

/// What the clients' patterns are like.
const KIND: Kind = Kind { slots: (1, 5), highest_word: 2, most_words: 2, widest_gap: 3 };

/// Numbers of clients that do not exist.
const NO_CLIENTS: [usize; 3] = [0, 5, usize::MAX];

/// A pattern and a text.
#[derive(Debug, PartialEq, Eq)]
pub struct Request {
    pub pattern: Pattern,
    pub text: Vec<u16>,
}

/// What a client asks for: the next occurrence, or its marks set to 0.
#[derive(Clone, Debug, PartialEq, Eq)]
pub enum Asked {
    Next(Rc<Request>),
    Rewind,
}

/// A call: the client's number, and what it asks for.
pub type Called = (usize, Asked);

/// A pattern that is accepted, and a text.
pub fn accepted_request(rng: &mut Rng) -> Request {
    let (pattern, words) = (any_pattern(rng, &KIND), rng.within(0, 30));
    Request { pattern, text: any_text(rng, words, 2) }
}

/// A pattern, now and then one past the limits, and a text.
pub fn any_request(rng: &mut Rng) -> Request {
    let mut request = accepted_request(rng);
    if rng.once_in(10) {
        break_pattern(rng, &mut request.pattern);
    }
    request
}

/// A pattern of few slots that take any word, and a text without a 0: there is almost always a next occurrence.
pub fn plentiful_request(rng: &mut Rng) -> Request {
    let slots = alike(But(&[]), rng.within(1, 3), 0, 1);
    Request { pattern: pattern(ANY_SPAN, &slots), text: vec![7; rng.within(40, 60)] }
}

/// What is asked for in so many calls: the request changes now and then, and some calls are rewinds.
pub fn any_asked(rng: &mut Rng, calls: usize, draw: fn(&mut Rng) -> Request) -> Vec<Asked> {
    let mut request = Rc::new(draw(rng));
    let mut asked = Vec::new();
    for _ in 0..calls {
        if rng.once_in(6) {
            request = Rc::new(draw(rng));
        }
        asked.push(if rng.once_in(8) { Asked::Rewind } else { Asked::Next(request.clone()) });
    }
    asked
}

/// A client, now and then one that does not exist.
fn any_client(rng: &mut Rng) -> usize {
    if rng.once_in(15) {
        rng.pick(&NO_CLIENTS)
    } else {
        rng.within(1, 4)
    }
}

/// So many calls of all clients, and of some that do not exist.
pub fn any_calls(rng: &mut Rng, calls: usize) -> Vec<Called> {
    let asked = any_asked(rng, calls, any_request);
    asked.into_iter().map(|asked| (any_client(rng), asked)).collect()
}

/// So many calls of clients other than this one, and of some that do not exist.
pub fn others_calls(rng: &mut Rng, client: usize, calls: usize, draw: fn(&mut Rng) -> Request) -> Vec<Called> {
    let asked = any_asked(rng, calls, draw);
    let mut others = std::iter::repeat_with(|| any_client(rng)).filter(|&other| other != client);
    asked.into_iter().map(|asked| (others.next().expect("there are other clients"), asked)).collect()
}

/// Both lists of calls in one, each in its own order.
pub fn interleaved(rng: &mut Rng, one: &[Called], other: &[Called]) -> Vec<Called> {
    let (mut one, mut other) = (one.iter(), other.iter());
    let mut all = Vec::new();
    while one.len() + other.len() > 0 {
        let from_one = rng.within(1, one.len() + other.len()) <= one.len();
        all.extend(if from_one { one.next() } else { other.next() }.cloned());
    }
    all
}

/// The state with these numbers served to clients 1 to 4, whose marks are all 0, all 1, all 2 and all 3.
pub fn numbered(numbers: [usize; 4]) -> Cursors {
    Cursors { clients: std::array::from_fn(|at| Client { marks: [at as u16; 16], served: numbers[at] }) }
}

/// The same with one number served to this client, if it exists, and another one to each of the others.
pub fn numbered_apart(client: usize, served: usize, others: usize) -> Cursors {
    numbered([1, 2, 3, 4].map(|at| if at == client { served } else { others }))
}
