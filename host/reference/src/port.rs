//! The port: collects the bytes of a line over calls.

use super::table::Table;
use super::{line, Refusal, PORT_BYTES};

/// The most bytes of a line, and so of a port.
const MOST: usize = 64;
const REPLY: usize = 64;

/// One call on a port: bytes consumed, reply length, cause and place.
pub fn call(
    table: &[u8],
    values: &mut [i64],
    port: &mut [u8; PORT_BYTES],
    given: &[u8],
    reply: &mut [u8],
) -> Result<[usize; 4], Refusal> {
    let table = sound(table, values, reply)?;
    check(port)?;
    // Zero bytes given change nothing, whatever stands in the port.
    if given.is_empty() {
        return Ok([0; 4]);
    }
    Ok(feed(table, values, port, given, reply))
}

/// The table, where neither it, nor the values, nor the reply buffer is
/// refused.
pub fn sound<'a>(table: &'a [u8], values: &[i64], reply: &[u8]) -> Result<Table<'a>, Refusal> {
    let table = Table::new(table).ok_or(1u8)?;
    if !table.takes(values) {
        return Err(2);
    }
    if reply.len() < REPLY {
        return Err(3);
    }
    Ok(table)
}

/// Refuses a port that claims too many held bytes.
pub fn check(port: &[u8; PORT_BYTES]) -> Result<(), Refusal> {
    if usize::from(port[0]) > MOST {
        return Err(4);
    }
    Ok(())
}

/// What a call does that is given bytes and not refused.
#[inline]
pub fn feed(
    table: Table,
    values: &mut [i64],
    port: &mut [u8; PORT_BYTES],
    given: &[u8],
    reply: &mut [u8],
) -> [usize; 4] {
    match given.iter().position(|&byte| byte == b'\r') {
        None => {
            collect(port, given);
            [given.len(), 0, 0, 0]
        }
        Some(end) => {
            collect(port, &given[..end]);
            let (length, fault) = if port[1] != 0 {
                line::overrun(reply)
            } else {
                let line = &port[2..2 + usize::from(port[0])];
                line::answer(table, values, line, reply)
            };
            port[0] = 0;
            port[1] = 0;
            let [cause, place] = fault.map_or([0; 2], |(cause, place)| [cause as usize, place]);
            [end + 1, length, cause, place]
        }
    }
}

/// Adds bytes of a line that goes on; the 65th makes the port overrun. Any
/// overrun byte but 0 is read as overrun, and stored as 1.
fn collect(port: &mut [u8; PORT_BYTES], bytes: &[u8]) {
    let held = usize::from(port[0]);
    if port[1] != 0 || held + bytes.len() > MOST {
        port[1] = 1;
        return;
    }
    port[2 + held..2 + held + bytes.len()].copy_from_slice(bytes);
    port[0] = (held + bytes.len()) as u8;
}
