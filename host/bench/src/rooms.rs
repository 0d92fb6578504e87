//! Rooms of several sizes, without mixers and with them.

use reference::catalogue::Kind;
use reference::layout::Layout;

pub struct Room {
    pub name: &'static str,
    pub table: Vec<u8>,
    /// The same with a `#` as the first byte of the last module's label.
    pub marked: Vec<u8>,
    pub values: Vec<i64>,
    /// Every settable value differs from the room's.
    pub wanted: Vec<i64>,
    /// A level and two words of the last module differ, one word in one output
    /// and one in two; none for a room without mixers.
    pub few: Option<Vec<i64>>,
    pub modules: usize,
    /// Values of the first module.
    pub first: usize,
    /// Values of the last module.
    pub last: usize,
    /// The label of the last module, and what is asked of it.
    pub label: Vec<u8>,
    pub asks: &'static [Ask],
    /// What a panel changes: the last level of the last module, or its last row.
    pub row: usize,
}

/// An index part and a text for it, and what they are called.
pub struct Ask {
    pub name: &'static str,
    pub index: &'static str,
    pub text: &'static str,
}

const fn ask(name: &'static str, index: &'static str, text: &'static str) -> Ask {
    Ask { name, index, text }
}

const SMALL: &[Ask] = &[ask("", ">1", "O")];
const ROUTER: &[Ask] = &[ask("", ">2>17", "-12.5")];
const DESK: &[Ask] = &[
    ask("-level", ">2>19", "-12.5"),
    ask("-word", ">3>12", "80400000"),
    ask("-pair", ">4>(12,10)", "T"),
];
const MIXER: &[Ask] = &[
    ask("-level", ">2>63", "-12.5"),
    ask("-word", ">3>32", "80000001"),
    ask("-pair", ">4>(32,32)", "T"),
];

/// The paper's table A, a room as it may be, the largest without mixers, an
/// outside broadcast's, and the largest of all.
pub fn all() -> [Room; 5] {
    let small = [(1, "T"), (2, "S")];
    let typical = [
        (1, "Commentary"),
        (1, "Screen left"),
        (1, "Screen right"),
        (1, "Surround"),
        (2, "Subwoofer"),
        (3, "Loudness"),
        (4, "Viewing room"),
        (4, "Foyer"),
        (6, "Microphones"),
        (5, "Desk"),
    ];
    let broadcast = [
        (Layout::of(1), "Commentary"),
        (Layout::of(6), "Microphones"),
        (Layout::mixer(2, 32), "Lines out"),
        (Layout::mixer(12, 10), "Desk"),
    ];
    let fixed = |&(kind, label): &(u8, &str)| (Layout::of(kind), label.to_string());
    let named = |&(layout, label): &(Layout, &str)| (layout, label.to_string());
    // Labels that differ in their last bytes only.
    let many = |layout| (0..64).map(move |number| (layout, format!("{:x<30}{number:02}", "")));
    [
        room("small", small.iter().map(fixed), SMALL),
        room("typical", typical.iter().map(fixed), ROUTER),
        room("largest", many(Layout::of(5)), ROUTER),
        room("broadcast", broadcast.iter().map(named), DESK),
        room("mixers", many(Layout::mixer(32, 32)), MIXER),
    ]
}

fn room(
    name: &'static str,
    modules: impl Iterator<Item = (Layout, String)>,
    asks: &'static [Ask],
) -> Room {
    let modules: Vec<(Layout, String)> = modules.collect();
    let mut table = Vec::new();
    let mut values = Vec::new();
    let mut wanted = Vec::new();
    for (layout, label) in &modules {
        table.extend(record(*layout, label));
        for row in layout.rows() {
            let start = row.start();
            values.push(start);
            wanted.push(match (row.settable, start == row.high) {
                (false, _) => start,
                (true, false) => row.high,
                (true, true) => row.low,
            });
        }
    }
    let (last, label) = &modules[modules.len() - 1];
    let mut marked = table.clone();
    let record = marked.len() - self::record(*last, label).len();
    marked[record + 1] = b'#';
    let rows: Vec<_> = last.rows().collect();
    let level = rows.iter().rposition(|row| row.kind == Kind::Level);
    Room {
        name,
        few: (last.outputs > 1).then(|| few(*last, &values)),
        table,
        marked,
        row: level.unwrap_or(rows.len() - 1),
        values,
        wanted,
        modules: modules.len(),
        first: modules[0].0.count(),
        last: last.count(),
        label: label.clone().into_bytes(),
        asks,
    }
}

fn record(layout: Layout, label: &str) -> Vec<u8> {
    let mut record = vec![layout.kind];
    record.extend_from_slice(label.as_bytes());
    record.resize(33, 0);
    if layout.outputs > 0 {
        record.extend([layout.inputs, layout.outputs]);
    }
    record
}

/// The values with three changes in the last module, a mixer.
fn few(last: Layout, values: &[i64]) -> Vec<i64> {
    let mut few = values.to_vec();
    let end = few.len();
    few[end - last.count()] -= 5;
    few[end - 2] ^= 0xC000_0000;
    few[end - 1] ^= 0x8000_0000;
    few
}
