//! What a line names: a whole parameter, or one cross-point of a mixer, which
//! is one bit of a routing word.

use super::catalogue::{Kind, Row};
use super::layout::Layout;
use super::mixer::{bit, only_differing};
use super::text::{read_switch, read_value, write_number, write_value, Group, Sink};

#[derive(Clone, Copy)]
pub struct Control {
    pub row: &'static Row,
    /// The output of a cross-point; its input is the row's second index.
    output: Option<u16>,
}

impl Control {
    /// What the groups of a line name in a module, and the place of its value.
    pub fn named(layout: Layout, groups: (Group, Option<Group>)) -> Option<(usize, Control)> {
        let (index, output) = match groups {
            (Group::Number(index1), None) => ((index1, None), None),
            (Group::Number(index1), Some(Group::Number(index2))) => ((index1, Some(index2)), None),
            (Group::Number(4), Some(Group::Pair(input, output)))
                if (1..=u16::from(layout.outputs)).contains(&output) =>
            {
                ((3, Some(input)), Some(output))
            }
            _ => return None,
        };
        let (place, row) = layout.find(index)?;
        Some((place, Control { row, output }))
    }

    /// A whole parameter.
    pub fn whole(row: &'static Row) -> Control {
        Control { row, output: None }
    }

    /// By what a list says a change: a word in which one output differs by its
    /// cross-point, which is shorter.
    pub fn of_change(row: &'static Row, present: i64, wanted: i64) -> Control {
        let output = match row.kind {
            Kind::Word => only_differing(present, wanted),
            _ => None,
        };
        Control { row, output }
    }

    /// The value that a text gives to the parameter with this present value.
    pub fn read(&self, text: &[u8], present: i64) -> Option<i64> {
        let Some(output) = self.output else {
            return read_value(self.row, text, present);
        };
        let on = read_switch(text, present & bit(output) != 0)?;
        Some(match on {
            true => present | bit(output),
            false => present & !bit(output),
        })
    }

    /// A reply or a set line: verb, label, indices, `=`, value, end.
    pub fn write_line(&self, sink: &mut impl Sink, verb: &[u8; 2], label: &[u8], value: i64) {
        sink.put(verb);
        sink.put(b"\"");
        sink.put(label);
        sink.put(b"\"");
        match self.output {
            None => self.write_whole(sink, value),
            Some(output) => self.write_crosspoint(sink, output, value),
        }
        sink.put(b"\r");
    }

    fn write_whole(&self, sink: &mut impl Sink, value: i64) {
        let (index1, index2) = self.row.index;
        sink.put(b">");
        write_number(sink, index1.into());
        if let Some(index2) = index2 {
            sink.put(b">");
            write_number(sink, index2.into());
        }
        sink.put(b"=");
        write_value(sink, self.row.kind, value);
    }

    fn write_crosspoint(&self, sink: &mut impl Sink, output: u16, value: i64) {
        let input = self.row.index.1.unwrap_or(0);
        sink.put(b">4>(");
        write_number(sink, input.into());
        sink.put(b",");
        write_number(sink, output.into());
        sink.put(b")=");
        let on = i64::from(value & bit(output) != 0);
        write_value(sink, Kind::Switch, on);
    }
}
