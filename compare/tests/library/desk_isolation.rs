//! One client's calls alone and among those of others: what the library answers it, whatever the others call.

use compare::cases::clients::{
    any_asked, any_request, interleaved, others_calls, plentiful_request, Asked, Called, Request,
};
use compare::layout::{Client, Cursors, Found};
use compare::rng::Rng;

use crate::desk::{follow, told};
use crate::run::Run;

/// The fewest occurrences that must be given to clients whose calls are at random.
const FEWEST: usize = 5_000;

/// Compares the calls of each client alone and among others' calls.
pub fn run(run: &mut Run) {
    let mut rng = Rng::new(67);
    at_random(run, &mut rng);
    used_up(run, &mut rng);
}

/// What the library answers to a client in a list of calls from a fresh state, and the state after the last.
struct Outcome {
    answers: Vec<Found>,
    cursors: Cursors,
}

impl Outcome {
    /// Compares a list of calls, and gives its outcome for one client.
    fn new(run: &mut Run, client: usize, calls: &[Called]) -> Outcome {
        let served = follow(run, Cursors::default(), calls);
        let cursors = served.last().expect("there are calls").cursors;
        Outcome { answers: told(client, calls, &served), cursors }
    }

    /// The client's entry of the state.
    fn entry(&self, client: usize) -> Client {
        self.cursors.clients[client - 1]
    }

    /// How many occurrences clients 1 to 4 were served.
    fn numbers(&self) -> [usize; 4] {
        self.cursors.clients.map(|client| client.served)
    }
}

/// Two lists of so many calls of clients other than this one.
fn two_lists(rng: &mut Rng, client: usize, calls: [usize; 2], draw: fn(&mut Rng) -> Request) -> [Vec<Called>; 2] {
    calls.map(|calls| others_calls(rng, client, calls, draw))
}

/// Compares one client's calls alone and among each of two lists of others' calls: the outcome of the three lists.
fn isolated(run: &mut Run, rng: &mut Rng, client: usize, own: Vec<Asked>, others: [Vec<Called>; 2]) -> [Outcome; 3] {
    let own: Vec<Called> = own.into_iter().map(|asked| (client, asked)).collect();
    let [one, other] = others.map(|others| interleaved(rng, &own, &others));
    // The client's calls come in two different lists.
    assert_ne!(one, other);
    let lists = [own, one, other];
    let outcomes = lists.each_ref().map(|list| Outcome::new(run, client, list));
    let [alone, ..] = &outcomes;
    for (list, among) in lists.iter().zip(&outcomes) {
        let case = || format!("calls of client {client} among others, and alone\nlist of calls: {list:?}");
        // No call of another client, nor of one that does not exist, changes an answer to this client ..
        run.agree(&among.answers, &alone.answers, case);
        // .. or its entry at the end.
        run.agree(&among.entry(client), &alone.entry(client), case);
    }
    outcomes
}

/// Compares calls at random of each client, alone and among calls at random of others.
fn at_random(run: &mut Run, rng: &mut Rng) {
    let mut given = 0;
    for round in 0..1_000 {
        let (client, calls) = (round % 4 + 1, rng.within(1, 40));
        let own = any_asked(rng, calls, any_request);
        let lengths = [rng.within(1, 80), rng.within(1, 80)];
        let others = two_lists(rng, client, lengths, any_request);
        let [alone, ..] = isolated(run, rng, client, own, others);
        given += alone.entry(client).served;
    }
    // The answers that agree are not refusals and lacks of an occurrence alone.
    assert!(given >= FEWEST, "{given} occurrences are given");
}

/// Compares calls of each client that use up its 500, among others that use up theirs before and others that do not.
fn used_up(run: &mut Run, rng: &mut Rng) {
    for client in 1..=4 {
        let own = any_asked(rng, 700, plentiful_request);
        let others = two_lists(rng, client, [4_000, 200], plentiful_request);
        let [alone, busy, idle] = isolated(run, rng, client, own, others);
        // The client is served its 500 and then refused ..
        assert!(alone.answers.iter().any(|answer| answer.number == 15));
        // .. where all others are served theirs, too ..
        assert_eq!(busy.numbers(), [500; 4]);
        // .. and where none of them is.
        assert_eq!(idle.numbers().map(|number| number == 500), [1, 2, 3, 4].map(|at| at == client));
    }
}
