//! A room to try lines on.

#![allow(dead_code)]

pub mod panels;

use reference::layout::Layout;

pub const ACK: &[u8] = b"\x06\r";

/// A record of the table.
pub fn record(kind: u8, label: &[u8]) -> Vec<u8> {
    let mut record = vec![0; 33];
    record[0] = kind;
    record[1..1 + label.len()].copy_from_slice(label);
    record
}

/// The record of a mixer.
pub fn mixer(inputs: u8, outputs: u8, label: &[u8]) -> Vec<u8> {
    [record(7, label), vec![inputs, outputs]].concat()
}

pub fn table(modules: &[(u8, &[u8])]) -> Vec<u8> {
    modules
        .iter()
        .flat_map(|&(kind, label)| record(kind, label))
        .collect()
}

pub fn nak(code: &str) -> Vec<u8> {
    [&[0x15], code.as_bytes(), b"\r"].concat()
}

pub struct Room {
    pub table: Vec<u8>,
    pub values: Vec<i64>,
    pub port: [u8; 66],
    /// Cause and place that the last call told.
    pub fault: [u64; 2],
}

/// The notice of an accepted panel change, empty for none, or the refusal.
pub type Turned = Result<Vec<u8>, u8>;

/// Consumed bytes and the reply of an accepted call, or the refusal.
pub type Fed = Result<(usize, Vec<u8>), u8>;

impl Room {
    pub fn new(modules: &[(u8, &[u8])]) -> Room {
        let layouts = modules.iter().map(|&(kind, _)| Layout::of(kind));
        Room::of(table(modules), layouts.collect())
    }

    /// A room of mixers, each with its inputs, outputs and label.
    pub fn mixers(mixers: &[(u8, u8, &[u8])]) -> Room {
        let records = mixers.iter().map(|&(m, n, label)| mixer(m, n, label));
        let layouts = mixers.iter().map(|&(m, n, _)| Layout::mixer(m, n));
        Room::of(records.flatten().collect(), layouts.collect())
    }

    /// A table with the values that it starts with.
    pub fn of(table: Vec<u8>, layouts: Vec<Layout>) -> Room {
        let rows = layouts.into_iter().flat_map(Layout::rows);
        Room {
            table,
            values: rows.map(|row| row.start()).collect(),
            port: [0; 66],
            fault: [0; 2],
        }
    }

    /// Table A of the paper.
    pub fn a() -> Room {
        Room::new(&[(1, b"T"), (2, b"S")])
    }

    pub fn feed(&mut self, given: &[u8]) -> Fed {
        let mut reply = [0xEE; 64];
        let mut told = [9; 4];
        let answer = reference::port(
            &self.table,
            &mut self.values,
            &mut self.port,
            given,
            &mut reply,
            &mut told,
        );
        self.fault = [told[2], told[3]];
        if answer != 0 {
            assert_eq!(told, [0; 4]);
            assert_eq!(reply, [0xEE; 64]);
            return Err(answer);
        }
        let (written, rest) = reply.split_at(told[1] as usize);
        assert!(rest.iter().all(|&byte| byte == 0xEE));
        // A cause is told exactly where the reply is 99.
        assert_eq!(told[2] != 0, written == nak("99"));
        assert!(told[2] <= 5 && told[3] <= 64 && (told[2] != 0 || told[3] == 0));
        Ok((told[0] as usize, written.to_vec()))
    }

    /// The reply to one line, given without its end.
    pub fn line(&mut self, line: &[u8]) -> Vec<u8> {
        let (consumed, reply) = self.feed(&[line, b"\r"].concat()).unwrap();
        assert_eq!(consumed, line.len() + 1);
        assert_eq!(self.port[..2], [0, 0]);
        reply
    }

    /// A panel change with so many bytes for the notice.
    pub fn panel_into(&mut self, room: usize, owner: u64, row: u64, value: i64) -> Turned {
        let before = self.values.clone();
        let mut reply = vec![0xEE; room];
        let mut told = [9];
        let answer = reference::panel(
            &self.table,
            &mut self.values,
            owner,
            row,
            value,
            &mut reply,
            &mut told,
        );
        let (notice, rest) = reply.split_at(told[0] as usize);
        assert!(rest.iter().all(|&byte| byte == 0xEE));
        if answer != 0 {
            assert_eq!(told, [0]);
            assert_eq!(self.values, before);
            return Err(answer);
        }
        Ok(notice.to_vec())
    }

    /// A panel change with a usual buffer.
    pub fn panel(&mut self, owner: u64, row: u64, value: i64) -> Turned {
        self.panel_into(64, owner, row, value)
    }

    /// Bytes and lines of a wish's list.
    pub fn restore_size(&self, selection: &[u8], wanted: &[i64]) -> Result<(usize, u64), u8> {
        let mut told = [9; 2];
        let answer =
            reference::restore_size(&self.table, &self.values, selection, wanted, &mut told);
        if answer != 0 {
            assert_eq!(told, [0, 0]);
            return Err(answer);
        }
        Ok((told[0] as usize, told[1]))
    }

    /// The list and its lines, with so many bytes for it. The size call is
    /// asked too, and what it tells must fit.
    pub fn restore_write(
        &self,
        selection: &[u8],
        wanted: &[i64],
        room: usize,
    ) -> Result<(Vec<u8>, u64), u8> {
        let mut list = vec![0xEE; room];
        let mut told = [9; 2];
        let answer = reference::restore_write(
            &self.table,
            &self.values,
            selection,
            wanted,
            &mut list,
            &mut told,
        );
        let counts = (told[0] as usize, told[1]);
        match self.restore_size(selection, wanted) {
            Err(refusal) => assert_eq!(answer, refusal),
            Ok((bytes, _)) if room < bytes => assert_eq!(answer, 8),
            Ok(size) => assert_eq!((answer, counts), (0, size)),
        }
        if answer != 0 {
            assert_eq!(told, [0, 0]);
            assert!(list.iter().all(|&byte| byte == 0xEE));
            return Err(answer);
        }
        assert!(list[counts.0..].iter().all(|&byte| byte == 0xEE));
        list.truncate(counts.0);
        Ok((list, told[1]))
    }
}
