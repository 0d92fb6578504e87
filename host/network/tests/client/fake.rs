//! A scripted box over the proved core.

use std::io::{Read, Write};
use std::net::{TcpListener, TcpStream};
use std::sync::{Arc, Mutex};
use std::thread::{self, JoinHandle};
use std::time::Duration;

use egrivundo::Room;

/// What the box does with a line.
pub enum Act {
    /// As the core answers.
    Answer,
    /// These bytes are sent, and the core does not get the line.
    Say(Vec<u8>),
    /// The core gets the line, and nothing is sent.
    Swallow,
    /// These bytes are sent, but only before the next reply of the connection.
    Late(Vec<u8>),
    /// News of a knob, and no reply, twenty times a second for five seconds.
    Chatter,
    /// The connection is closed.
    Close,
    /// No connection is taken any more, and then this one is closed, and each
    /// other at its next line.
    Die,
}

type Script = dyn FnMut(&mut Room, &str) -> Act + Send;

/// What all connections share.
struct Shared {
    room: Room,
    /// How many connections were taken.
    taken: usize,
    /// Every line that came.
    heard: Vec<String>,
    script: Box<Script>,
    dead: bool,
    /// What takes connections.
    listening: Option<JoinHandle<()>>,
}

impl Shared {
    /// What still listens though the box is dead.
    fn last_breath(&mut self) -> Option<JoinHandle<()>> {
        self.listening.take_if(|_| self.dead)
    }
}

pub struct Fake {
    pub address: String,
    shared: Arc<Mutex<Shared>>,
}

impl Fake {
    /// A box with this room; the script is asked about each line.
    pub fn new(room: Room, script: impl FnMut(&mut Room, &str) -> Act + Send + 'static) -> Fake {
        let listener = TcpListener::bind("127.0.0.1:0").expect("a port");
        let address = listener.local_addr().expect("its address").to_string();
        let shared = Arc::new(Mutex::new(Shared {
            room,
            taken: 0,
            heard: Vec::new(),
            script: Box::new(script),
            dead: false,
            listening: None,
        }));
        let all = Arc::clone(&shared);
        let listening = thread::spawn(move || {
            for stream in listener.incoming() {
                {
                    let mut all = all.lock().unwrap();
                    if all.dead {
                        return;
                    }
                    all.taken += 1;
                }
                let all = Arc::clone(&all);
                let stream = stream.expect("a connection");
                thread::spawn(move || serve(stream, &all));
            }
        });
        shared.lock().unwrap().listening = Some(listening);
        Fake { address, shared }
    }

    /// A box that answers as the core does.
    pub fn plain(room: Room) -> Fake {
        Fake::new(room, |_, _| Act::Answer)
    }

    pub fn room(&self) -> Room {
        self.shared.lock().unwrap().room.clone()
    }

    /// How many connections were taken.
    pub fn taken(&self) -> usize {
        self.shared.lock().unwrap().taken
    }

    /// The set lines that came.
    pub fn sets(&self) -> Vec<String> {
        let shared = self.shared.lock().unwrap();
        let sets = shared.heard.iter().filter(|line| line.starts_with("SA"));
        sets.cloned().collect()
    }

    /// As another writer does.
    pub fn write(&self, line: &str) {
        let mut shared = self.shared.lock().unwrap();
        assert!(
            shared.room.line(line.as_bytes()).unwrap().is_ack(),
            "{line}"
        );
    }
}

fn serve(mut stream: TcpStream, shared: &Mutex<Shared>) {
    let mut line = Vec::new();
    let mut byte = [0];
    // What is sent before the next reply.
    let mut late = Vec::new();
    while matches!(stream.read(&mut byte), Ok(1)) {
        if byte[0] != b'\r' {
            line.push(byte[0]);
            continue;
        }
        let Some(pieces) = reply(&line, shared, &mut late) else {
            let last = shared.lock().unwrap().last_breath();
            if let Some(listening) = last {
                // It looks whether the box is dead when somebody connects.
                let _ = TcpStream::connect(stream.local_addr().expect("its address"));
                listening.join().expect("it ends");
            }
            return;
        };
        for (number, piece) in pieces.iter().enumerate() {
            if number > 0 {
                thread::sleep(Duration::from_millis(50));
            }
            if stream.write_all(piece).is_err() {
                return;
            }
        }
        line.clear();
    }
}

/// What is sent for a line, piece by piece; nothing where the connection is
/// closed.
fn reply(line: &[u8], shared: &Mutex<Shared>, late: &mut Vec<u8>) -> Option<Vec<Vec<u8>>> {
    let mut shared = shared.lock().unwrap();
    let text = String::from_utf8_lossy(line).into_owned();
    shared.heard.push(text.clone());
    let Shared {
        room, script, dead, ..
    } = &mut *shared;
    if *dead {
        return None;
    }
    let act = script(room, &text);
    let mut answer = || room.line(line).unwrap().bytes().to_vec();
    let now = match act {
        Act::Answer => answer(),
        Act::Say(bytes) => bytes,
        Act::Swallow => {
            answer();
            Vec::new()
        }
        Act::Late(bytes) => {
            late.extend(bytes);
            return Some(Vec::new());
        }
        Act::Chatter => return Some(vec![b"GA\"#Hall\">1=1\r".to_vec(); 100]),
        Act::Close => return None,
        Act::Die => {
            *dead = true;
            return None;
        }
    };
    Some(vec![late.drain(..).chain(now).collect()])
}
