//! What the reference answers.

use std::path::Path;

use egrivundo::{Row, Type};

/// A room's values and one port, as the reference has them.
#[derive(Clone)]
pub struct Model {
    table: Vec<u8>,
    pub values: Vec<i64>,
    port: [u8; reference::PORT_BYTES],
}

impl Model {
    pub fn of(room: &Path) -> Model {
        let room = files::read_room(room).expect("a room");
        Model {
            table: room.table().to_vec(),
            values: room.values().to_vec(),
            port: [0; reference::PORT_BYTES],
        }
    }

    /// The replies to bytes that come next.
    pub fn replies(&mut self, mut given: &[u8]) -> Vec<u8> {
        let mut replies = Vec::new();
        while !given.is_empty() {
            let (mut reply, mut told) = ([0; 64], [0; 4]);
            let answer = reference::port(
                &self.table,
                &mut self.values,
                &mut self.port,
                given,
                &mut reply,
                &mut told,
            );
            assert_eq!(answer, 0);
            replies.extend(&reply[..told[1] as usize]);
            given = &given[told[0] as usize..];
        }
        replies
    }

    /// The connection is closed, and another one opened.
    pub fn reopen(&mut self) {
        self.port = [0; reference::PORT_BYTES];
    }
}

/// A module for each client, so that what one is answered depends on no other:
/// its label is `P` and the client's number.
pub fn room_file(clients: usize) -> String {
    let kinds = ["tone-control-eq", "room-combiner", "conference-router"];
    let module = |number: usize| match number % 4 {
        3 => format!("module standard-mixer \"P{number}\" 2x3\n"),
        kind => format!("module {} \"P{number}\"\n", kinds[kind]),
    };
    (0..clients).map(module).collect()
}

/// The rows of a client's module.
pub fn rows(number: usize) -> Vec<Row> {
    let desk = Type::StandardMixer {
        inputs: 2,
        outputs: 3,
    };
    let kinds = [
        Type::ToneControlEq,
        Type::RoomCombiner,
        Type::ConferenceRouter,
        desk,
    ];
    kinds[number % 4].rows()
}
