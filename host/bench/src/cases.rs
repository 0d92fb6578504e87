//! The cases: each call on each room.

use std::hint::black_box;
use std::rc::Rc;

use crate::rooms::{self, Room};
use cores::Calls;

/// One call with its buffers.
pub struct Case {
    pub name: String,
    room: Rc<Room>,
    work: Work,
    values: Vec<i64>,
    port: [u8; 66],
    reply: [u8; 64],
    list: Vec<u8>,
    fed: [u64; 4],
    row: Vec<u8>,
    turned: [u64; 6],
    noticed: [u64; 1],
    listed: [u64; 2],
    part: [u64; 3],
    /// What the call must tell: its numbers, and how the reply begins.
    expected: Expected,
}

enum Work {
    Table,
    Port {
        given: Vec<u8>,
    },
    /// A turn over 32 open connections.
    Turn {
        given: Vec<u8>,
        counts: [u64; 32],
    },
    /// A panel change, of the last module.
    Panel {
        marked: bool,
    },
    Size(Wish),
    Write(Wish),
    Log {
        line: Vec<u8>,
    },
}

/// What both restore calls are given beside the room.
#[derive(Clone)]
struct Wish {
    selection: Vec<u8>,
    wanted: Vec<i64>,
}

enum Expected {
    Nothing,
    Reply(&'static [u8]),
    /// Whom a turn served, and its reply.
    Served(u64, &'static [u8]),
    Nobody,
    Notice(&'static [u8]),
    Lines(u64),
    InTable(u64),
}

/// The last served of every turn: the one that waits alone is looked at last.
const LAST: usize = 15;

pub fn all() -> Vec<Case> {
    rooms::all().into_iter().flat_map(of_room).collect()
}

fn of_room(room: Room) -> Vec<Case> {
    let room = Rc::new(room);
    let line = |verb: &str, label: &[u8], rest: String| {
        [verb.as_bytes(), b"\"", label, b"\"", rest.as_bytes()].concat()
    };
    let port = |given: Vec<u8>, reply| (Work::Port { given }, Expected::Reply(reply));
    let mut works = vec![("table".to_string(), (Work::Table, Expected::Nothing))];
    for ask in room.asks {
        let (name, index, text) = (ask.name, ask.index, ask.text);
        let set = line("SA", &room.label, format!("{index}={text}\r"));
        let get = line("GA", &room.label, format!("{index}\r"));
        works.push((format!("port-set{name}"), port(set, b"\x06\r")));
        works.push((format!("port-get{name}"), port(get, b"GA\"")));
    }
    let index = room.asks[0].index;
    let get = line("GA", &room.label, format!("{index}\r"));
    let unknown = line("GA", b"Nowhere", format!("{index}\r"));
    let part = get[..get.len() - 2].to_vec();
    works.push(("port-unknown".to_string(), port(unknown, b"\x1501\r")));
    works.push(("port-part".to_string(), port(part, b"")));
    let turn = |waits: &dyn Fn(usize) -> bool| {
        let own = |number| if waits(number) { &get[..] } else { b"" };
        let queues: [&[u8]; 32] = std::array::from_fn(own);
        let counts = queues.map(|queue| queue.len() as u64);
        let given = queues.concat();
        Work::Turn { given, counts }
    };
    let served = |number: usize| Expected::Served(number as u64, b"GA\"");
    let (one, all) = (turn(&|number| number == LAST), turn(&|_| true));
    works.push(("turn-one".to_string(), (one, served(LAST))));
    works.push(("turn-all".to_string(), (all, served(LAST + 1))));
    let nobody = turn(&|_| false);
    works.push(("turn-nobody".to_string(), (nobody, Expected::Nobody)));
    let panel = |marked, notice| (Work::Panel { marked }, Expected::Notice(notice));
    works.push(("panel-silent".to_string(), panel(false, b"")));
    works.push(("panel-notice".to_string(), panel(true, b"GA\"#")));
    let mut one = vec![0; room.modules];
    one[0] = 1;
    let none = vec![0; room.modules];
    let all = vec![1; room.modules];
    let mut restore = |name: &str, selection: &[u8], wanted: &[i64], judged: usize| {
        let pairs = room.values.iter().zip(wanted).take(judged);
        let lines = pairs.filter(|(present, wanted)| present != wanted).count();
        let (selection, wanted) = (selection.to_vec(), wanted.to_vec());
        let wish = Wish { selection, wanted };
        for (call, work) in [
            ("size", Work::Size(wish.clone())),
            ("write", Work::Write(wish)),
        ] {
            let name = format!("restore-{call}-{name}");
            works.push((name, (work, Expected::Lines(lines as u64))));
        }
    };
    restore("none", &none, &room.wanted, 0);
    restore("one", &one, &room.wanted, room.first);
    if let Some(few) = &room.few {
        restore("few", &all, few, few.len());
    }
    restore("all", &all, &room.wanted, room.values.len());
    works.push((
        "log".to_string(),
        (Work::Log { line: get }, Expected::InTable(1)),
    ));
    works
        .into_iter()
        .map(|(call, (work, expected))| Case {
            name: format!("{call}/{}", room.name),
            room: Rc::clone(&room),
            work,
            values: room.values.clone(),
            port: [0; 66],
            reply: [0; 64],
            list: vec![0; room.values.len() * 51],
            fed: [0; 4],
            row: [&[1][..], &[0; 66]].concat().repeat(32),
            turned: [0; 6],
            noticed: [0; 1],
            listed: [0; 2],
            part: [0; 3],
            expected,
        })
        .collect()
}

impl Case {
    /// Makes the call once.
    pub fn call(&mut self, calls: &Calls) -> u8 {
        let room = black_box(&*self.room);
        let answer = match &self.work {
            Work::Table => (calls.table)(&room.table),
            Work::Port { given } => {
                self.port[..2].fill(0);
                (calls.port)(
                    &room.table,
                    &mut self.values,
                    &mut self.port,
                    given,
                    &mut self.reply,
                    &mut self.fed,
                )
            }
            Work::Turn { given, counts } => (calls.turn)(
                &room.table,
                &mut self.values,
                &mut self.row,
                LAST as u64,
                given,
                counts,
                &mut self.reply,
                &mut self.turned,
            ),
            Work::Panel { marked } => {
                // Each call finds the value as it was, and so changes it.
                let place = room.values.len() - room.last + room.row;
                self.values[place] = room.values[place];
                let table = if *marked { &room.marked } else { &room.table };
                (calls.panel)(
                    table,
                    &mut self.values,
                    room.modules as u64 - 1,
                    room.row as u64,
                    room.wanted[place],
                    &mut self.reply,
                    &mut self.noticed,
                )
            }
            Work::Size(wish) => (calls.restore_size)(
                &room.table,
                &room.values,
                &wish.selection,
                &wish.wanted,
                &mut self.listed,
            ),
            Work::Write(wish) => (calls.restore_write)(
                &room.table,
                &room.values,
                &wish.selection,
                &wish.wanted,
                &mut self.list,
                &mut self.listed,
            ),
            Work::Log { line } => {
                (calls.log)(&room.table, line, &mut self.part);
                0
            }
        };
        black_box(answer)
    }

    /// Makes the call once and stops where it does not what it should.
    pub fn check(&mut self, calls: &Calls) {
        let answer = self.call(calls);
        assert_eq!(answer, 0, "{}: refused", self.name);
        let right = match self.expected {
            Expected::Nothing => true,
            Expected::Reply(begin) => self.begins(self.fed[1], begin),
            Expected::Served(number, begin) => {
                let [served, who, _, length, ..] = self.turned;
                (served, who) == (1, number) && self.begins(length, begin)
            }
            Expected::Nobody => self.turned == [0; 6],
            Expected::Notice(begin) => self.begins(self.noticed[0], begin),
            Expected::Lines(lines) => self.listed[1] == lines,
            Expected::InTable(found) => self.part[0] == found,
        };
        assert!(right, "{}: another answer than expected", self.name);
    }

    /// Whether a reply of this length begins so, and is empty where it should
    /// be.
    fn begins(&self, length: u64, begin: &[u8]) -> bool {
        let reply = &self.reply[..length as usize];
        reply.starts_with(begin) && reply.is_empty() == begin.is_empty()
    }
}
