//! Plays the commands of the program `turns` over the table in the file
//! `table`, the paper's A, whose seven values all start at 0.

use std::io::{Read, Write};

fn main() -> std::io::Result<()> {
    let table = std::fs::read("table")?;
    let mut input = Vec::new();
    std::io::stdin().read_to_end(&mut input)?;
    std::io::stdout().write_all(&played(&table, &input))
}

fn played(table: &[u8], input: &[u8]) -> Vec<u8> {
    let mut values = [0; 7];
    let mut row = [0; reference::CONNECTIONS * reference::CONNECTION_BYTES];
    let mut last = 31;
    let mut out = Vec::new();
    let mut rest = input;
    loop {
        rest = match *rest {
            [b'o', number, ref rest @ ..] => {
                out.push(reference::open(&mut row, number.into()));
                rest
            }
            [b'c', number, ref rest @ ..] => {
                out.push(reference::close(&mut row, number.into()));
                rest
            }
            [b't', ref rest @ ..] => {
                let Some((counts, rest)) = rest.split_at_checked(reference::CONNECTIONS) else {
                    return out;
                };
                let counts: Vec<u64> = counts.iter().map(|&count| count.into()).collect();
                let all = counts.iter().sum::<u64>() as usize;
                let Some((given, rest)) = rest.split_at_checked(all) else {
                    return out;
                };
                let mut reply = [0; 64];
                let mut told = [0; 6];
                out.push(reference::turn(
                    table,
                    &mut values,
                    &mut row,
                    last,
                    given,
                    &counts,
                    &mut reply,
                    &mut told,
                ));
                out.extend(told.map(|number| number as u8));
                let [served, which, _, sent, ..] = told;
                out.extend(&reply[..sent as usize]);
                if served == 1 {
                    last = which;
                }
                rest
            }
            _ => return out,
        };
    }
}
