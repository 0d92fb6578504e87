//! Thirty-two connections: whose turn it is, and opening and closing.

use super::{port, Refusal, CONNECTIONS, CONNECTION_BYTES, PORT_BYTES};

/// The refusal of all that is wrong with connections.
const CONNECTION: Refusal = 10;

/// The bytes that wait for all connections.
pub struct Waiting<'a> {
    /// The number of the last served.
    pub last: u64,
    /// One connection's after the other's, in number order.
    pub given: &'a [u8],
    /// How many are of each.
    pub counts: &'a [u64],
}

/// One turn: 1, the number of the one served and what its port call tells, or
/// zeros where none waits.
pub fn turn(
    table: &[u8],
    values: &mut [i64],
    row: &mut [u8],
    waiting: Waiting,
    reply: &mut [u8],
) -> Result<[usize; 6], Refusal> {
    let row = connections(row).ok_or(CONNECTION)?;
    let parts = waiting.parts().ok_or(CONNECTION)?;
    let last = number(waiting.last).ok_or(CONNECTION)?;
    let table = port::sound(table, values, reply)?;
    for connection in row.iter_mut() {
        port::check(port_of(connection))?;
    }
    let waits = |number: &usize| is_open(&row[*number]) && !parts[*number].is_empty();
    let Some(served) = round(last).find(waits) else {
        return Ok([0; 6]);
    };
    let connection = &mut row[served];
    connection[0] = 1;
    let told = port::feed(table, values, port_of(connection), parts[served], reply);
    let [consumed, length, cause, place] = told;
    Ok([1, served, consumed, length, cause, place])
}

/// Opens or closes a connection, which leaves it a fresh port.
pub fn switch(row: &mut [u8], which: u64, open: bool) -> Result<[usize; 0], Refusal> {
    let row = connections(row).ok_or(CONNECTION)?;
    let connection = &mut row[number(which).ok_or(CONNECTION)?];
    if is_open(connection) == open {
        return Err(CONNECTION);
    }
    *connection = [0; CONNECTION_BYTES];
    connection[0] = u8::from(open);
    Ok([])
}

impl<'a> Waiting<'a> {
    /// Each connection's own bytes, where there are as many counts as
    /// connections, and they come to all bytes.
    fn parts(&self) -> Option<[&'a [u8]; CONNECTIONS]> {
        let counts: &[u64; CONNECTIONS] = self.counts.try_into().ok()?;
        let mut parts = [&self.given[..0]; CONNECTIONS];
        let mut rest = self.given;
        for (part, &count) in parts.iter_mut().zip(counts) {
            (*part, rest) = rest.split_at_checked(usize::try_from(count).ok()?)?;
        }
        rest.is_empty().then_some(parts)
    }
}

/// The numbers in their order: from the one after the last served, and round
/// again, that one itself at the end.
fn round(last: usize) -> impl Iterator<Item = usize> {
    (last + 1..=last + CONNECTIONS).map(|place| place % CONNECTIONS)
}

/// The connections of a row of the right length.
fn connections(row: &mut [u8]) -> Option<&mut [[u8; CONNECTION_BYTES]; CONNECTIONS]> {
    match row.as_chunks_mut() {
        (connections, []) => connections.try_into().ok(),
        _ => None,
    }
}

/// A connection's number, from 0.
fn number(number: u64) -> Option<usize> {
    usize::try_from(number)
        .ok()
        .filter(|&number| number < CONNECTIONS)
}

/// Any byte but 0 is open.
fn is_open(connection: &[u8; CONNECTION_BYTES]) -> bool {
    connection[0] != 0
}

fn port_of(connection: &mut [u8; CONNECTION_BYTES]) -> &mut [u8; PORT_BYTES] {
    let [_, port @ ..] = connection;
    port
}
