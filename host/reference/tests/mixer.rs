//! Lines to a Standard Mixer: levels, mutes, routing words and cross-points.

mod common;
use common::{nak, Room, ACK};

/// Inputs and outputs of the mixer that most lines go to.
const INPUTS: usize = 8;
const OUTPUTS: usize = 10;
/// The place of the first routing word.
const WORDS: usize = 2 * INPUTS + 2 * OUTPUTS;

fn desk() -> Room {
    Room::mixers(&[(INPUTS as u8, OUTPUTS as u8, b"M")])
}

/// A line on zeros that sets one value.
fn acked(line: &str, place: usize, value: i64) {
    let mut room = desk();
    assert_eq!(room.line(line.as_bytes()), ACK, "{line}");
    let mut expected = vec![0; WORDS + INPUTS];
    expected[place] = value;
    assert_eq!(room.values, expected, "{line}");
}

fn naked(room: &mut Room, code: &str, lines: &[&str]) {
    for line in lines {
        let before = room.values.clone();
        assert_eq!(room.line(line.as_bytes()), nak(code), "{line}");
        assert_eq!(room.values, before, "{line}");
    }
}

#[test]
fn the_source() {
    let mut room = Room::mixers(&[
        (1, 1, b"StdMixer 1"),
        (1, 8, b"My Mixer"),
        (4, 8, b"Mix"),
        (6, 8, b"Theatre"),
    ]);
    let starts = [0, 5, 5 + 19, 5 + 19 + 28];
    assert_eq!(room.values.len(), starts[3] + 34);
    assert_eq!(room.line(br#"SA"StdMixer 1">1>1=-3"#), ACK);
    assert_eq!(room.values[0], -30);
    // The mute of output 8.
    assert_eq!(room.line(br#"SA"My Mixer">2>16=O"#), ACK);
    assert_eq!(room.values[starts[1] + 2 + 15], 1);
    // Input 2 to outputs 1 and 2.
    assert_eq!(room.line(br#"SA"Mix">3>2=C0000000"#), ACK);
    assert_eq!(room.values[starts[2] + 8 + 16 + 1], 0xC000_0000);
    for (line, reply) in [
        (r#"GA"Mix">4>(2,1)"#, "GA\"Mix\">4>(2,1)=O\r"),
        (r#"GA"Mix">4>(2,2)"#, "GA\"Mix\">4>(2,2)=O\r"),
        (r#"GA"Mix">4>(2,3)"#, "GA\"Mix\">4>(2,3)=F\r"),
        (r#"GA"Mix">4>(1,2)"#, "GA\"Mix\">4>(1,2)=F\r"),
    ] {
        assert_eq!(room.line(line.as_bytes()), reply.as_bytes());
    }
    // Input 4 to output 5.
    assert_eq!(room.line(br#"SA"Theatre">4>(4,5)=O"#), ACK);
    let words = starts[3] + 12 + 16;
    assert_eq!(room.values[words..], [0, 0, 0, 0x0800_0000, 0, 0]);
    // Input 4 is routed to outputs 7 and 8.
    for line in [r#"SA"Mix">4>(4,7)=O"#, r#"SA"Mix">4>(4,8)=T"#] {
        assert_eq!(room.line(line.as_bytes()), ACK);
    }
    assert_eq!(room.line(br#"GA"Mix">3>4"#), b"GA\"Mix\">3>4=03000000\r");
    let reply = room.line(br#"GA"Theatre">4>(6,8)"#);
    assert_eq!(reply, b"GA\"Theatre\">4>(6,8)=F\r");
}

#[test]
fn outputs_of_a_word() {
    let mut room = Room::mixers(&[(1, 32, b"M")]);
    for (word, outputs) in [
        (
            "84924F3A",
            &[1, 6, 9, 12, 15, 18, 21, 22, 23, 24, 27, 28, 29, 31][..],
        ),
        ("80000001", &[1, 32]),
        ("00000000", &[]),
        ("40000002", &[2, 31]),
    ] {
        assert_eq!(room.line(format!("SA\"M\">3>1={word}").as_bytes()), ACK);
        let reply = format!("GA\"M\">3>1={word}\r");
        assert_eq!(room.line(br#"GA"M">3>1"#), reply.as_bytes());
        for output in 1..=32 {
            let text = if outputs.contains(&output) { 'O' } else { 'F' };
            let reply = format!("GA\"M\">4>(1,{output})={text}\r");
            let line = format!("GA\"M\">4>(1,{output})");
            assert_eq!(room.line(line.as_bytes()), reply.as_bytes());
        }
    }
    assert_eq!(room.line(br#"SA"M">3>1=80000001"#), ACK);
    assert_eq!(room.values[2 + 64], 2_147_483_649);
}

#[test]
fn levels_and_mutes() {
    for channel in [1, 2, INPUTS] {
        let (level, mute) = (2 * channel - 1, 2 * channel);
        acked(&format!("SA\"M\">1>{level}=-60.5"), level - 1, -605);
        acked(&format!("SA\"M\">1>{mute}=T"), mute - 1, 1);
        let first = 2 * INPUTS;
        acked(&format!("SA\"M\">2>{level}=12"), first + level - 1, 120);
        acked(&format!("SA\"M\">02>{mute:03}=O"), first + mute - 1, 1);
    }
    acked("SA\"M\">2>20=O", 2 * INPUTS + 19, 1);
    let lines = [
        r#"SA"M">1>1=-61"#,
        r#"SA"M">1>1=12.5"#,
        r#"SA"M">2>1=0.1"#,
        r#"SA"M">1>2=1"#,
        r#"SA"M">2>20=00000001"#,
    ];
    naked(&mut desk(), "03", &lines);
    let lines = [
        r#"SA"M">1>0=1"#,
        r#"SA"M">1>17=1"#,
        r#"SA"M">2>21=1"#,
        r#"SA"M">2>0=O"#,
        r#"SA"M">0>1=1"#,
        r#"SA"M">5>1=1"#,
        r#"SA"M">1=1"#,
        r#"GA"M">3"#,
        r#"GA"M">3>0"#,
        r#"GA"M">3>9"#,
    ];
    naked(&mut desk(), "02", &lines);
}

#[test]
fn words() {
    acked(r#"SA"M">3>1=80000000"#, WORDS, 0x8000_0000);
    acked(r#"SA"M">003>008=FFC00000"#, WORDS + 7, 0xFFC0_0000);
    acked(r#"SA"M">3>2=00400000"#, WORDS + 1, 0x0040_0000);
    let mut room = desk();
    room.values[WORDS] = 0x4000_0000;
    // A bit of an output that the mixer has not; another length, another
    // letter, another kind's text.
    let wrong = "00200000 80000001 FFFFFFFF 00000001 FFE00000 0 8000000 0800000 080000000 \
                 ffc00000 FFc00000 0x800000 8000000G +8000000 -8000000 O F T 2147483648";
    for text in wrong.split(' ').chain(["", " 8000000", "8000000 "]) {
        naked(&mut room, "03", &[&format!("SA\"M\">3>1={text}")]);
    }
    // With one output there are two words; with all, every one.
    let mut room = Room::mixers(&[(1, 1, b"M")]);
    assert_eq!(room.line(br#"SA"M">3>1=80000000"#), ACK);
    naked(&mut room, "03", &[r#"SA"M">3>1=40000000"#]);
    let mut room = Room::mixers(&[(1, 32, b"M")]);
    assert_eq!(room.line(br#"SA"M">3>1=FFFFFFFF"#), ACK);
    assert_eq!(room.values[66], 0xFFFF_FFFF);
}

#[test]
fn crosspoints() {
    acked(r#"SA"M">4>(1,1)=O"#, WORDS, 0x8000_0000);
    acked(r#"SA"M">4>(8,10)=T"#, WORDS + 7, 0x0040_0000);
    acked(r#"SA "M">04>(001,02)=O"#, WORDS, 0x4000_0000);
    acked(r#"SA"M">4>(3,3)=F"#, WORDS + 2, 0);
    // Only one bit of one word changes, both ways.
    let mut room = desk();
    room.values[WORDS..].fill(0xAA80_0000);
    let expect = |room: &Room, word| {
        assert_eq!(room.values[WORDS + 2], word);
        let mut others = room.values[WORDS..].to_vec();
        others.remove(2);
        assert_eq!(others, [0xAA80_0000; INPUTS - 1]);
    };
    for (line, word) in [
        (r#"SA"M">4>(3,1)=F"#, 0x2A80_0000),
        (r#"SA"M">4>(3,1)=F"#, 0x2A80_0000),
        (r#"SA"M">4>(3,2)=O"#, 0x6A80_0000),
        (r#"SA"M">4>(3,9)=T"#, 0x6A00_0000),
        (r#"SA"M">4>(3,9)=T"#, 0x6A80_0000),
        (r#"SA"M">4>(3,10)=T"#, 0x6AC0_0000),
    ] {
        assert_eq!(room.line(line.as_bytes()), ACK);
        expect(&room, word);
    }
    // A reply is in the form asked, without leading zeros.
    let reply = room.line(br#"GA"M">004>(03,010)"#);
    assert_eq!(reply, b"GA\"M\">4>(3,10)=O\r");
    assert_eq!(room.line(br#"GA"M">03>003"#), b"GA\"M\">3>3=6AC00000\r");
    for text in ["1", "o", "OO", "", "80000000", "0"] {
        naked(&mut room, "03", &[&format!("SA\"M\">4>(1,1)={text}")]);
    }
}

#[test]
fn pairs_elsewhere() {
    let mut room = desk();
    let outside = ">4>(0,1) >4>(1,0) >4>(9,1) >4>(1,11) >4>(10,8) >4>(257,1) >4>(1,257) \
                   >4>(999,999) >4>(0,0)";
    let elsewhere = ">3>(1,1) >1>(1,1) >5>(1,1) >(1,1) >(1,1)>1 >(4,1)>(1,1) >4>1 >4";
    let forms = ">4>(1,1)>1 >4>(1,1 >4>1,1) >4>(1,1)) >4>((1,1) >4>(1,1,1) >4>(1,,1) >4>(,1) \
                 >4>(1,) >4>() >4>(1) >4>( >4>(0001,1) >4>(1,0001) >4>(-1,1) >4(1,1) >4>(1>1) \
                 >4>(A,1)";
    let spaces = [">4>( 1,1)", ">4>(1, 1)", ">4>(1,1) "];
    let all = [outside, elsewhere, forms].map(|some| some.split(' '));
    for groups in all.into_iter().flatten().chain(spaces) {
        let set = format!("SA\"M\"{groups}=O");
        naked(&mut room, "02", &[&set, &format!("GA\"M\"{groups}")]);
    }
    naked(&mut room, "02", &[r#"GA"M">4>(1,1)=O"#]);
    for kind in 1..=6 {
        let mut room = Room::new(&[(kind, b"M")]);
        let lines = [
            r#"SA"M">4>(1,1)=O"#,
            r#"GA"M">4>(1,2)"#,
            r#"GA"M">4>(2,18)"#,
            r#"SA"M">3>1=80000000"#,
        ];
        naked(&mut room, "02", &lines);
    }
}
