//! The cursors of the brute force: calls of one and of two clients, with answers and states put down by hand.

use super::*;
use crate::cases::inputs::sevens;
use crate::cases::Words::Only;
use crate::cases::{pattern, ANY_SPAN};
use crate::layout::{Client, Cursors, Pattern, Served};

/// The scope's first text, aggcaaga, with 1 for a, 3 for c and 7 for g.
const TEXT: [u16; 8] = [1, 7, 7, 3, 1, 1, 7, 1];

/// The scope's first pattern, a[0,1]g[0,1]a: its front list is (1,3,5), (5,7,8).
fn three_slots() -> Pattern {
    pattern(ANY_SPAN, &[(0, 0, Only(&[1])), (0, 1, Only(&[7])), (0, 1, Only(&[1]))])
}

/// These numbers, and 0 for the rest of sixteen.
fn sixteen(first: [u16; 3]) -> [u16; 16] {
    let mut all = [0; 16];
    all[..3].copy_from_slice(&first);
    all
}

/// What clients 1 to 4 are served, their marks 0.
fn with_numbers(numbers: [usize; 4]) -> Cursors {
    Cursors { clients: numbers.map(|served| Client { marks: [0; 16], served }) }
}

/// Asserts that a call gives a row that begins with these places, or none where they are 0.
fn assert_given(served: &Served, places: [u16; 3]) {
    assert_eq!((served.number, served.place, served.found), (0, 0, u64::from(places != [0; 3])));
    assert_eq!(served.places, sixteen(places));
}

/// Asserts that a call is refused with this number and leaves this state.
fn assert_refused(served: &Served, number: u32, cursors: &Cursors) {
    assert_eq!((served.number, served.place, served.found), (number, 0, 0));
    assert_eq!((served.places, served.cursors), ([0; 16], *cursors));
}

/// The examples in the scope's table of refusals, 14 and 15.
#[test]
fn refusals_of_cursors() {
    let accepted = pattern(ANY_SPAN, &sevens(1, 0, 0));
    let text = vec![7; 600];
    let brute = Brute::enumerated(&accepted, &text);
    let mut cursors = Cursors::default();
    assert_refused(&brute.next(&cursors, 5), 14, &cursors);
    assert_refused(&rewind(&cursors, 5), 14, &cursors);
    for call in 1..=500 {
        let served = brute.next(&cursors, 4);
        assert_given(&served, [call, 0, 0]);
        cursors = served.cursors;
    }
    assert_refused(&brute.next(&cursors, 4), 15, &cursors);
}

/// Two clients in turn: each has marks and a number of its own, and a rewind leaves the number.
#[test]
fn two_clients_in_turn() {
    let (three, one) = (three_slots(), pattern(ANY_SPAN, &sevens(1, 0, 0)));
    let (three, one) = (Brute::enumerated(&three, &TEXT), Brute::enumerated(&one, &TEXT));
    let mut state = Cursors::default();
    for (client, places) in [(2, [1, 3, 5]), (3, [1, 3, 5]), (2, [5, 7, 8]), (2, [0, 0, 0])] {
        let served = three.next(&state, client);
        assert_given(&served, places);
        state = served.cursors;
    }
    let fresh = Client { marks: [0; 16], served: 0 };
    let third = Client { marks: sixteen([1, 3, 5]), served: 1 };
    assert_eq!(state.clients, [fresh, Client { marks: sixteen([5, 7, 8]), served: 2 }, third, fresh]);
    // One slot reads and sets the first mark alone: the 7 past place 5 stands at 7.
    let served = one.next(&state, 2);
    assert_given(&served, [7, 0, 0]);
    assert_eq!(served.cursors.clients, [fresh, Client { marks: sixteen([7, 7, 8]), served: 3 }, third, fresh]);
    let rewound = rewind(&served.cursors, 2);
    assert_given(&rewound, [0, 0, 0]);
    assert_eq!(rewound.cursors.clients, [fresh, Client { marks: [0; 16], served: 3 }, third, fresh]);
    let served = three.next(&rewound.cursors, 2);
    assert_given(&served, [1, 3, 5]);
    let served = three.next(&served.cursors, 3);
    assert_given(&served, [5, 7, 8]);
    let second = Client { marks: sixteen([1, 3, 5]), served: 4 };
    assert_eq!(served.cursors.clients, [fresh, second, Client { marks: sixteen([5, 7, 8]), served: 2 }, fresh]);
}

/// Two clients with different numbers: 500 refuses the one, and the other is served its last at 499.
#[test]
fn two_clients_with_different_numbers() {
    let three = three_slots();
    let brute = Brute::enumerated(&three, &TEXT);
    let state = with_numbers([0, 499, 0, 500]);
    assert_refused(&brute.next(&state, 4), 15, &state);
    assert_eq!((rewind(&state, 4).number, rewind(&state, 4).cursors), (0, state));
    let served = brute.next(&state, 2);
    assert_given(&served, [1, 3, 5]);
    let mut after = with_numbers([0, 500, 0, 500]);
    after.clients[1].marks = sixteen([1, 3, 5]);
    assert_eq!(served.cursors, after);
    assert_refused(&brute.next(&after, 2), 15, &after);
    assert_refused(&brute.next(&after, 4), 15, &after);
    assert_eq!(rewind(&after, 2).cursors, with_numbers([0, 500, 0, 500]));
    let served = brute.next(&after, 3);
    assert_given(&served, [1, 3, 5]);
    assert_eq!(served.cursors.clients.map(|client| client.served), [0, 500, 1, 500]);
    // Numbers that no list of calls leads to.
    let beyond = with_numbers([501, 499, usize::MAX, 0]);
    assert_refused(&brute.next(&beyond, 1), 15, &beyond);
    assert_refused(&brute.next(&beyond, 3), 15, &beyond);
    assert_eq!([2, 4].map(|client| brute.next(&beyond, client).found), [1, 1]);
}

/// 6 comes before 14 and 15, and 15 also where there is no occurrence; rewinding tests 14 alone.
#[test]
fn order_of_cursors_tests() {
    let three = three_slots();
    let state = with_numbers([500; 4]);
    let (long, empty) = (Brute::enumerated(&three, &[7; 20_001]), Brute::enumerated(&three, &[]));
    assert_refused(&long.next(&state, 0), 6, &state);
    assert_refused(&long.next(&state, 1), 6, &state);
    assert_refused(&empty.next(&state, 0), 14, &state);
    assert_refused(&empty.next(&state, 1), 15, &state);
    assert_refused(&rewind(&state, 0), 14, &state);
    assert_given(&rewind(&state, 1), [0, 0, 0]);
}
