//! What each client is served at most: 500 for each of the four, and numbers that no list of calls leads to.

use compare::brute::{Brute, Enumerated, Row};
use compare::cases::clients::numbered;
use compare::cases::inputs::sevens;
use compare::cases::sentences::cut_every;
use compare::cases::small::tuples;
use compare::cases::Words::But;
use compare::cases::{pattern, ANY_SPAN};
use compare::layout::{Client, Cursors, Pattern};
use compare::rng::Rng;

use crate::both::{rewind, Both};
use crate::desk::front_list;
use crate::run::Run;

/// The most that a client is served.
const QUOTA: usize = 500;

/// A client that was served all it may be and has then begun again.
const USED_UP: Client = Client { marks: [0; 16], served: QUOTA };

/// Numbers served on both sides of the limit; no list of calls leads to the last two.
const NUMBERS: [usize; 5] = [0, QUOTA - 1, QUOTA, QUOTA + 1, usize::MAX];

/// Compares lists of calls that use up what clients are served, and calls from any numbers served.
pub fn run(run: &mut Run) {
    let mut rng = Rng::new(68);
    let one = pattern(ANY_SPAN, &sevens(1, 0, 0));
    // Sentences of two words: each is one occurrence, and the next begins past a 0.
    let two = pattern(ANY_SPAN, &sevens(2, 0, 2));
    // Any word but 8 before any word: the same occurrences.
    let excluding = pattern(ANY_SPAN, &[(0, 0, But(&[8])), (0, 2, But(&[]))]);
    let cut = cut_every(3, vec![7; 1_800]);
    for (pattern, text) in [(one, &[7; 600][..]), (two, &cut), (excluding, &cut)] {
        for first in 1..=4 {
            one_after_another(run, first, &pattern, text);
        }
        in_any_order(run, &mut rng, &pattern, text);
    }
    own_number_decides(run);
}

/// Four clients that all ask for one pattern in one text with 600 occurrences, without a rewind until they are refused.
struct Desk<'a> {
    both: Both<'a, Enumerated>,
    front: Vec<Row>,
    cursors: Cursors,
}

impl<'a> Desk<'a> {
    /// The fresh desk.
    fn new(run: &'a mut Run, pattern: &'a Pattern, text: &'a [u16]) -> Self {
        let (front, cursors) = (front_list(pattern, text), Cursors::default());
        // There are more rows to give than a client is served.
        assert_eq!(front.len(), 600);
        Desk { both: Both::new(run, Brute::enumerated(pattern, text)), front, cursors }
    }

    /// The client's entry of the state.
    fn entry(&self, client: usize) -> Client {
        self.cursors.clients[client - 1]
    }

    /// Compares calls of a client that bring its number from what it is to this one.
    fn serve(&mut self, client: usize, up_to: usize) {
        for number in self.entry(client).served..up_to {
            let served = self.both.next(&self.cursors, client);
            let row = &self.front[number];
            // It is served from its own marks: the row of the front list after those that it was served.
            assert_eq!((served.number, served.found, &served.places[..row.len()]), (0, 1, &row[..]));
            self.cursors = served.cursors;
            // Its own number counts what it was served, however often others were.
            assert_eq!(self.entry(client).served, number + 1);
        }
    }

    /// Compares calls of a client that was served all it may be, and a rewind between them.
    fn refuse(&mut self, client: usize) {
        self.refused(client);
        self.cursors = rewind(self.both.run, &self.cursors, client).cursors;
        // The rewind leaves its number ..
        assert_eq!(self.entry(client), USED_UP);
        // .. so that it is still refused.
        self.refused(client);
    }

    /// Compares a call of a client that must be refused with 15 and change nothing.
    fn refused(&mut self, client: usize) {
        let served = self.both.next(&self.cursors, client);
        // One more than 500 is refused, with no place and no row, and the state stays.
        assert_eq!((served.number, served.place, served.found), (15, 0, 0));
        assert_eq!((served.places, served.cursors), ([0; 16], self.cursors));
    }
}

/// Compares calls of four clients at different marks, this one using up its 500 first, then the others theirs.
fn one_after_another(run: &mut Run, first: usize, pattern: &Pattern, text: &[u16]) {
    let mut desk = Desk::new(run, pattern, text);
    (1..=4).for_each(|client| desk.serve(client, 3 * client));
    desk.serve(first, QUOTA);
    desk.refuse(first);
    for other in (1..=4).filter(|&other| other != first) {
        desk.serve(other, QUOTA);
        desk.refuse(other);
    }
    // All four were served 500, 2,000 together, and are refused from then on.
    assert_eq!(desk.cursors.clients, [USED_UP; 4]);
    (1..=4).for_each(|client| desk.refuse(client));
}

/// Compares calls of four clients in any order until all have used up their 500.
fn in_any_order(run: &mut Run, rng: &mut Rng, pattern: &Pattern, text: &[u16]) {
    let mut desk = Desk::new(run, pattern, text);
    while desk.cursors.clients.iter().any(|client| client.served < QUOTA) {
        let client = rng.within(1, 4);
        match desk.entry(client).served {
            QUOTA => desk.refuse(client),
            number => desk.serve(client, number + 1),
        }
    }
    (1..=4).for_each(|client| desk.refuse(client));
}

/// Compares a call and a rewind of each client from states with every four numbers.
fn own_number_decides(run: &mut Run) {
    let pattern = pattern(ANY_SPAN, &sevens(2, 0, 1));
    for chosen in tuples(&[0, 1, 2, 3, 4], 4) {
        let cursors = numbered(std::array::from_fn(|at| NUMBERS[chosen[at] as usize]));
        let mut both = Both::new(run, Brute::enumerated(&pattern, &[7; 9]));
        for client in 1..=4 {
            own_number(&mut both, &cursors, client);
        }
    }
}

/// Compares a call and a rewind of a client whose marks leave an occurrence to give.
fn own_number(both: &mut Both<Enumerated>, cursors: &Cursors, client: usize) {
    let (served, rewound) = (both.next(cursors, client), rewind(both.run, cursors, client));
    let Client { marks, served: number } = cursors.clients[client - 1];
    let mut after = *cursors;
    if number < QUOTA {
        // Where its own number is below 500 it is served, and its number rises by 1, whatever the others' are.
        let place = marks[0] + 1;
        let own = &mut after.clients[client - 1];
        (own.marks[0], own.marks[1], own.served) = (place, place + 1, number + 1);
        assert_eq!((served.number, served.found, served.places[..2] == [place, place + 1]), (0, 1, true));
    } else {
        // From 500 up, also from numbers never reached, it is refused.
        assert_eq!((served.number, served.found), (15, 0));
    }
    // Nothing else changes.
    assert_eq!(served.cursors, after);
    // A rewind leaves any number as it was, and answers whatever the number is.
    let mut begun = *cursors;
    begun.clients[client - 1].marks = [0; 16];
    assert_eq!((rewound.number, rewound.cursors), (0, begun));
}
