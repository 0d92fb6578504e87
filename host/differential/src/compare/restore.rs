//! The two restore calls: the size of a list, and the list.

use std::cmp::Ordering;

use super::written::{Output, Written};
use super::{form, number, short, Compare, Difference};
use crate::lent::Lent;
use crate::rng::Rng;
use cores::Calls;

/// What both calls are given.
#[derive(Clone, Copy)]
pub struct Wish<'a> {
    pub table: &'a [u8],
    pub present: &'a [i64],
    pub selection: &'a [u8],
    pub wanted: &'a [i64],
}

/// The list and its lines, or the refusal.
pub type Answer = Result<(Vec<u8>, usize), u8>;

/// What a core says of a list's size.
struct Size {
    answer: u8,
    told: Lent<u64>,
}

/// Bytes of a list's line, at least and at most.
const LINE: [u64; 2] = [10, 51];

impl Compare<'_> {
    /// The size call on both, and then the writing call on both, with no byte
    /// for the list, with one less than it has, as many, one more, and as many
    /// as are named. Each core is held to what itself said of the size.
    pub fn restore(
        &mut self,
        rng: &mut Rng,
        wish: Wish,
        others: &[usize],
    ) -> Result<Answer, Difference> {
        let filler = u64::from(rng.byte());
        let sizes = [self.left, self.right].map(|core| size(core, wish, filler));
        self.tally.count("size", number(sizes[1].answer));
        let fail = |what| format!("restore_size: {what}{}{}", wish.words(), told(&sizes));
        // The lengths go by what the first core told.
        likely(wish, &sizes[0]).map_err(fail)?;
        let bytes = sizes[0].told.view()[0] as usize;
        let mut lengths = vec![0, bytes.saturating_sub(1), bytes, bytes + 1];
        lengths.extend(others);
        lengths.sort_unstable();
        lengths.dedup();
        let mut answer = Err(sizes[1].answer);
        for room in lengths {
            let written = self.restore_write(rng, wish, &sizes, room)?;
            if room == bytes {
                answer = written;
            }
        }
        alike(wish, &sizes).map_err(fail)?;
        if let Ok((list, _)) = &answer {
            for line in list.split_inclusive(|&byte| byte == b'\r') {
                self.tally.note("said", form(line));
            }
        }
        Ok(answer)
    }

    /// The writing call on both, with so many bytes for the list.
    fn restore_write(
        &mut self,
        rng: &mut Rng,
        wish: Wish,
        sizes: &[Size; 2],
        room: usize,
    ) -> Result<Answer, Difference> {
        let mut written = Written::new(rng, room, 2);
        let call = |core: &Calls, output: &mut Output| {
            (core.restore_write)(
                wish.table,
                wish.present,
                wish.selection,
                wish.wanted,
                output.buffer.lend(),
                output.told.block(),
            )
        };
        let answers = (
            call(self.left, &mut written.left),
            call(self.right, &mut written.right),
        );
        self.tally.count("write", number(answers.1));
        self.tally.note("buffer", fits(&sizes[1], room));
        judge(answers, &written, sizes, room).map_err(|what| {
            format!(
                "restore_write: {what}{}{}\n  list buffer {room}, answers {answers:?}, \
                 told {:?} and {:?}\n  lists {} and {}",
                wish.words(),
                told(sizes),
                written.left.told.view(),
                written.right.told.view(),
                written.left.buffer.view().escape_ascii(),
                written.right.buffer.view().escape_ascii(),
            )
        })
    }
}

fn size(core: &Calls, wish: Wish, filler: u64) -> Size {
    let mut told = Lent::new(&[filler; 2], 99);
    let answer = (core.restore_size)(
        wish.table,
        wish.present,
        wish.selection,
        wish.wanted,
        told.block(),
    );
    Size { answer, told }
}

/// How a buffer fits what was told.
fn fits(size: &Size, room: usize) -> &'static str {
    match (room as u64).cmp(&size.told.view()[0]) {
        _ if size.answer != 0 => "refused",
        Ordering::Less => "shorter",
        Ordering::Equal => "equal",
        Ordering::Greater => "longer",
    }
}

/// What can be said of a size without any reference: a refusal tells zeros and
/// is none for a lack of room, and the bytes are those of so many lines.
fn likely(wish: Wish, size: &Size) -> Result<(), Difference> {
    let [bytes, lines] = [0, 1].map(|place| size.told.view()[place]);
    ensure!(size.told.guarded(), "wrote beside a lent slice");
    if size.answer != 0 {
        ensure!([1, 2, 5, 6, 7].contains(&size.answer), "no such refusal");
        ensure!(bytes == 0 && lines == 0, "a refusal's counts");
    }
    ensure!(lines <= wish.present.len() as u64, "more lines than values");
    ensure!(
        (LINE[0] * lines..=LINE[1] * lines).contains(&bytes),
        "{bytes} bytes in {lines} lines"
    );
    Ok(())
}

/// Both sizes are likely, and the same.
fn alike(wish: Wish, sizes: &[Size; 2]) -> Result<(), Difference> {
    likely(wish, &sizes[1])?;
    ensure!(sizes[0].answer == sizes[1].answer, "answers differ");
    ensure!(
        sizes[0].told.view() == sizes[1].told.view(),
        "counts differ"
    );
    Ok(())
}

/// One core's two calls, given the same: 8 exactly where the buffer is shorter
/// than was told, else as many bytes and lines; and refused alike.
fn paired(size: &Size, room: usize, answer: u8, told: &[u64]) -> bool {
    if size.answer != 0 {
        return answer == size.answer;
    }
    let shorter = (room as u64) < size.told.view()[0];
    (answer == 8) == shorter && (shorter || (answer == 0 && told == size.told.view()))
}

/// What both writing calls answered, where nothing is wrong with it.
fn judge(
    answers: (u8, u8),
    written: &Written,
    sizes: &[Size; 2],
    room: usize,
) -> Result<Answer, Difference> {
    for (core, size, answer, output) in [
        ("first", &sizes[0], answers.0, &written.left),
        ("second", &sizes[1], answers.1, &written.right),
    ] {
        ensure!(
            paired(size, room, answer, output.told.view()),
            "the {core} core's size and list are no pair"
        );
    }
    written.same(answers, "lists")?;
    ensure!(written.guarded(), "wrote beside a lent slice");
    if answers.1 != 0 {
        written.refused()?;
        return Ok(Err(answers.1));
    }
    let [bytes, lines] = written.counts();
    ensure!(written.ends_by(bytes), "wrote past the list");
    let list = &written.right.buffer.view()[..bytes];
    let ends = list.iter().filter(|&&byte| byte == b'\r').count();
    ensure!(ends == lines, "{ends} ends of lines");
    Ok(Ok((list.to_vec(), lines)))
}

impl Wish<'_> {
    fn words(self) -> String {
        format!(
            "\n  selection {}\n  present {}\n  wanted {}\n  table {}",
            self.selection.escape_ascii(),
            short(self.present),
            short(self.wanted),
            self.table.escape_ascii(),
        )
    }
}

fn told(sizes: &[Size; 2]) -> String {
    let [left, right] = sizes;
    format!(
        "\n  sizes: answers {:?}, told {:?} and {:?}",
        (left.answer, right.answer),
        left.told.view(),
        right.told.view(),
    )
}
