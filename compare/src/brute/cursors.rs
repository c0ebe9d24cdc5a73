//! The cursors of four clients, call by call.

use super::refusal::{refuse, Refusal};
use super::rows::{Row, Searcher};
use crate::layout::{Client, Cursors, Served};

/// The client's entry; a client other than 1 to 4 is refused.
fn entry(cursors: &mut Cursors, client: usize) -> Result<&mut Client, Refusal> {
    match client {
        1..=4 => Ok(&mut cursors.clients[client - 1]),
        _ => refuse(14, 0),
    }
}

/// Searches from the client's marks; an occurrence becomes those marks and adds 1 to the number that it was served.
pub fn next(cursors: &mut Cursors, client: usize, searcher: &impl Searcher) -> Result<Option<Row>, Refusal> {
    let client = entry(cursors, client)?;
    if client.served >= 500 {
        return refuse(15, 0);
    }
    let marks = &mut client.marks[..searcher.slots()];
    let found = searcher.first_after(marks);
    if let Some(row) = &found {
        marks.copy_from_slice(row);
        client.served += 1;
    }
    Ok(found)
}

/// Sets a client's marks to 0, and leaves its number.
pub fn rewind(cursors: &Cursors, client: usize) -> Served {
    let mut after = *cursors;
    let rewound = entry(&mut after, client).map(|client| client.marks = [0; 16]);
    served(after, rewound.map(|()| None))
}

/// The state a call leaves, with its answer beside it.
pub fn served(cursors: Cursors, outcome: Result<Option<Row>, Refusal>) -> Served {
    let found = super::calls::found(outcome);
    Served { cursors, number: found.number, place: found.place, found: found.found, places: found.places }
}
