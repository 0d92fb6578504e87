//! Turns over thirty-two connections: who is served, and with what.

mod common;
use common::panels::Panels;
use common::{nak, Room, ACK};

/// Serves until nobody waits, and tells whom.
fn served(panels: &mut Panels, room: &mut Room) -> Vec<usize> {
    let mut numbers = Vec::new();
    while let Some((number, ..)) = panels.turn(room).unwrap() {
        numbers.push(number);
    }
    numbers
}

#[test]
fn fresh_row() {
    // All are closed; whatever waits is passed over.
    let mut room = Room::a();
    let mut panels = Panels::new();
    assert_eq!(panels.turn(&mut room), Ok(None));
    panels.queues.fill(b"SA\"T\">1=1\r".to_vec());
    assert_eq!(panels.turn(&mut room), Ok(None));
    assert_eq!((panels.last, &room.values[..]), (31, &[0; 7][..]));
    // The first to be looked at is 0.
    let mut panels = Panels::with([0, 1, 31]);
    panels.queues.fill(b"\r".to_vec());
    assert_eq!(panels.turn(&mut room), Ok(Some((0, 1, nak("99")))));
}

#[test]
fn round_and_round() {
    let mut room = Room::a();
    let mut panels = Panels::with(0..32);
    panels.queues.fill(b"\r\r".to_vec());
    let twice: Vec<usize> = (0..32).chain(0..32).collect();
    assert_eq!(served(&mut panels, &mut room), twice);
    // From any last served: the ones after it, then the ones before, then it.
    for last in 0..32 {
        let mut panels = Panels::with(0..32);
        panels.last = last as u64;
        panels.queues.fill(b"\r".to_vec());
        let expected: Vec<usize> = (last + 1..32).chain(0..=last).collect();
        assert_eq!(served(&mut panels, &mut room), expected);
        // Alone it has turn after turn.
        let mut panels = Panels::with(0..32);
        panels.last = last as u64;
        panels.queues[last] = b"\r\r\r".to_vec();
        assert_eq!(served(&mut panels, &mut room), [last; 3]);
    }
}

#[test]
fn next_of_those_that_wait() {
    let mut room = Room::a();
    for last in 0..32 {
        for (first, second) in (0..32).flat_map(|first| (0..32).map(move |other| (first, other))) {
            let mut panels = Panels::with(0..32);
            panels.last = last as u64;
            panels.queues[first] = b"\r".to_vec();
            panels.queues[second] = b"\r".to_vec();
            let ahead = |number: usize| (number + 31 - last) % 32;
            let next = if ahead(first) <= ahead(second) {
                first
            } else {
                second
            };
            assert_eq!(panels.turn(&mut room), Ok(Some((next, 1, nak("99")))));
        }
    }
}

#[test]
fn own_bytes() {
    // Each is given its own part, and consumes it up to the first 0D.
    let mut room = Room::a();
    let mut panels = Panels::with([2, 5, 9]);
    panels.queues[2] = b"SA\"T\">1=-4\rGA\"T\">3\r".to_vec();
    panels.queues[3] = b"SA\"T\">1=9\r".to_vec();
    panels.queues[5] = b"GA\"T".to_vec();
    panels.queues[9] = b"SA\"S\">1=O\r".to_vec();
    panels.queues[31] = b"\r\r\r".to_vec();
    assert_eq!(panels.turn(&mut room), Ok(Some((2, 11, ACK.to_vec()))));
    assert_eq!(room.values, [-40, 0, 0, 0, 0, 0, 0]);
    assert_eq!(panels.turn(&mut room), Ok(Some((5, 4, vec![]))));
    assert_eq!(panels.held(5), b"GA\"T");
    assert_eq!(panels.turn(&mut room), Ok(Some((9, 10, ACK.to_vec()))));
    let reply = b"GA\"T\">3=0\r".to_vec();
    assert_eq!(panels.turn(&mut room), Ok(Some((2, 8, reply))));
    // One that holds bytes and has none waiting does not wait.
    assert_eq!(panels.turn(&mut room), Ok(None));
    assert_eq!(panels.last, 2);
    panels.queues[5] = b"\">1\r".to_vec();
    let reply = b"GA\"T\">1=-4\r".to_vec();
    assert_eq!(panels.turn(&mut room), Ok(Some((5, 4, reply))));
    // The closed ones' bytes were neither consumed nor read.
    assert_eq!(panels.queues[3].len() + panels.queues[31].len(), 10 + 3);
    assert_eq!(room.values, [-40, 0, 0, 0, 0, 0, 1]);
}

#[test]
fn long_parts() {
    // The sizes at which a count is cut to a byte or two.
    let mut room = Room::a();
    for length in [64, 65, 255, 256, 257, 65_535, 65_536, 65_537] {
        let mut panels = Panels::with([0, 7]);
        panels.last = 3;
        panels.queues[3] = vec![b'y'; length];
        panels.queues[7] = vec![b'x'; length];
        assert_eq!(panels.turn(&mut room), Ok(Some((7, length, vec![]))));
        assert_eq!(panels.at(7)[2], u8::from(length > 64));
        panels.queues[7] = b"\r\r".to_vec();
        assert_eq!(panels.turn(&mut room), Ok(Some((7, 1, nak("99")))));
    }
}

#[test]
fn faults() {
    // The answer has the port call's cause and place.
    let mut room = Room::a();
    let mut panels = Panels::with([8]);
    for (line, fault) in [
        (&b"GA\"T\">1"[..], [0, 0]),
        (&[b'x'; 65], [1, 64]),
        (b"XA", [2, 0]),
        (b"SA T", [3, 3]),
        (b"GA\"T", [4, 4]),
        (b"SA\"T\">1", [5, 7]),
    ] {
        panels.queues[8] = [line, b"\r"].concat();
        panels.turn(&mut room).unwrap();
        assert_eq!(room.fault, fault, "{}", line.escape_ascii());
    }
}

#[test]
fn others_keep_their_lines() {
    // `turn_of` compares the bytes of the 31 others, whatever stands there.
    let mut room = Room::a();
    let mut panels = Panels::new();
    for number in 0..32 {
        let connection = panels.at(number);
        connection.fill(number as u8 + 1);
        connection[0] = [0, 1, 2, 255][number % 4];
        connection[1] = 2 * number as u8;
        connection[2] = (number / 8) as u8;
    }
    panels.queues.fill(b"\rx".to_vec());
    let open: Vec<usize> = (0..32).filter(|number| number % 4 != 0).collect();
    let twice = open.repeat(2);
    assert_eq!(served(&mut panels, &mut room), twice);
    for number in 0..32 {
        let expected = if number % 4 == 0 { 0 } else { 1 };
        assert_eq!(panels.at(number)[0], expected);
    }
    assert_eq!(panels.held(1), b"x");
}

#[test]
fn within_32_turns() {
    // One that stays open with bytes waiting has its turn, whoever else comes
    // and goes; `last` is at its worst at the start.
    for own in 0..32 {
        let mut room = Room::a();
        let mut panels = Panels::with([own]);
        panels.last = own as u64;
        let mut turns = 0;
        loop {
            for number in (0..32).filter(|&number| number != own) {
                panels.close(number as u64);
                if (turns + number) % 3 != 0 || turns > 20 {
                    panels.open(number as u64);
                }
            }
            panels.queues.fill(b"\r".to_vec());
            turns += 1;
            if panels.turn(&mut room).unwrap().unwrap().0 == own {
                break;
            }
        }
        assert!(turns <= 32, "{own}: {turns}");
    }
}

#[test]
fn demand_three_of_one_connection() {
    // Bytes counted for closed ones are there; the list is given as it is left.
    let mut room = Room::a();
    let wanted = [-40, 1, 0, 0, 5, 0, 1];
    let (list, lines) = room.restore_write(&[1, 1], &wanted, 99).unwrap();
    let mut panels = Panels::with([4, 30]);
    panels.queues[0] = b"SA\"T\">3=1\r".to_vec();
    panels.queues[4] = list;
    let mut acks = 0;
    while let Some((number, _, reply)) = panels.turn(&mut room).unwrap() {
        assert_eq!((number, &reply[..]), (4, ACK));
        acks += 1;
    }
    assert_eq!(acks, lines);
    assert_eq!(room.values, wanted);
    assert_eq!(panels.at(4)[..3], [1, 0, 0]);
}
