//! Rows as the core tells them, against what the core does with lines and
//! values.

use egrivundo::{bit, Index, Kind, Refusal, Room, Row, Type};

fn types() -> Vec<Type> {
    let sizes = [(1, 1), (2, 3), (9, 32), (32, 1), (32, 32)];
    let mixer = |(inputs, outputs)| Type::StandardMixer { inputs, outputs };
    let mixers = sizes.into_iter().map(mixer);
    Type::FIXED.into_iter().chain(mixers).collect()
}

/// Whether a room of one such module may have a value in a row.
fn accepted(kind: Type, row: usize, value: i64) -> bool {
    let room = Room::new(&[(kind, "M")]).unwrap();
    let mut values = room.values().to_vec();
    values[row] = value;
    match Room::from_parts(room.table().to_vec(), values) {
        Ok(_) => true,
        Err(refusal) => {
            assert_eq!(refusal, Refusal::Values);
            false
        }
    }
}

#[test]
fn bounds_and_steps() {
    for kind in types() {
        for (number, row) in kind.rows().iter().enumerate() {
            let Row {
                low, high, step, ..
            } = *row;
            for value in [low, low + step, high - step, high] {
                assert!(
                    accepted(kind, number, value),
                    "{kind} {} {value}",
                    row.index
                );
                assert!(row.permits(value));
            }
            let mut wrong = vec![low - step, low - 1, high + step, high + 1];
            if step > 1 {
                wrong.extend([low + 1, high - 1, low + step / 2]);
            }
            for value in wrong {
                assert!(
                    !accepted(kind, number, value),
                    "{kind} {} {value}",
                    row.index
                );
                assert!(!row.permits(value));
            }
        }
    }
}

/// The reply to a get line.
fn get(room: &mut Room, index: Index) -> Result<String, String> {
    let reply = room.line(format!("GA\"M\">{index}").as_bytes()).unwrap();
    match reply.nak() {
        Some(code) => Err(code.to_string()),
        None => Ok(reply.to_string().rsplit('=').next().unwrap().to_string()),
    }
}

#[test]
fn every_index_and_no_other() {
    for kind in types() {
        let mut room = Room::new(&[(kind, "M")]).unwrap();
        let rows = kind.rows();
        let all = (0..70).flat_map(|first| (0..70).map(move |second| Index::Two(first, second)));
        for index in all.chain((0..1000).map(Index::One)) {
            let found = rows.iter().filter(|row| row.index == index).count();
            match get(&mut room, index) {
                Ok(_) => assert_eq!(found, 1, "{kind} {index}"),
                Err(code) => assert_eq!((found, &code[..]), (0, "02"), "{kind} {index}"),
            }
        }
    }
}

#[test]
fn kinds_places_and_settable_rows() {
    for kind in types() {
        let room = Room::new(&[(kind, "M")]).unwrap();
        for (number, row) in kind.rows().iter().enumerate() {
            // With the row at its greatest value, its line shows that value:
            // a text that another kind or place would not give.
            let mut values = room.values().to_vec();
            values[number] = row.high;
            let mut high = Room::from_parts(room.table().to_vec(), values.clone()).unwrap();
            let text = match row.kind {
                Kind::Level if row.high % 10 == 0 => (row.high / 10).to_string(),
                Kind::Switch => "O".to_string(),
                Kind::Number => row.high.to_string(),
                Kind::Word => format!("{:08X}", row.high),
                _ => panic!("no row has a level of this high"),
            };
            assert_eq!(get(&mut high, row.index), Ok(text.clone()));
            let mut low = room.clone();
            let line = format!("SA\"M\">{}={text}", row.index);
            let reply = low.line(line.as_bytes()).unwrap();
            assert_eq!(reply.is_ack(), row.settable, "{kind} {}", row.index);
            assert_eq!(low.values() == values, row.settable);
        }
    }
}

#[test]
fn crosspoints() {
    let kind = Type::StandardMixer {
        inputs: 2,
        outputs: 3,
    };
    let mut room = Room::new(&[(kind, "M")]).unwrap();
    for input in 0..4 {
        for output in 0..34 {
            let index = Index::Crosspoint { input, output };
            let found = kind.find(index);
            assert_eq!(found.is_some(), get(&mut room, index).is_ok(), "{index}");
            if let Some((row, output)) = found {
                let line = format!("SA\"M\">{index}=O");
                assert!(room.line(line.as_bytes()).unwrap().is_ack());
                assert!(room.values()[row] & bit(output.unwrap()) != 0);
            }
        }
    }
    assert_eq!(room.values()[10..], [0xE000_0000; 2]);
    let router = Type::ConferenceRouter;
    assert_eq!(
        router.find(Index::Crosspoint {
            input: 1,
            output: 1
        }),
        None
    );
}

#[test]
fn starts() {
    for kind in types() {
        let starts: Vec<i64> = kind
            .rows()
            .iter()
            .map(|row| if row.permits(0) { 0 } else { row.low })
            .collect();
        assert_eq!(kind.start(), starts);
        let room = Room::new(&[(Type::SmartBass, "A"), (kind, "B")]).unwrap();
        assert_eq!(room.values()[1..], starts);
        assert_eq!(room.modules().last().unwrap().start, 1);
    }
}
