//! Values: bounds, steps and the order of rows.

use super::Mistake;

pub const MISTAKES: &[Mistake] = &[
    (
        "bound_high",
        "a fader goes up to 12.5",
        "catalogue.rs",
        "-605, 120, 5",
        "-605, 125, 5",
    ),
    (
        "bound_low",
        "a fader goes down to -60.0 only",
        "catalogue.rs",
        "-605, 120, 5",
        "-600, 120, 5",
    ),
    (
        "bound_number",
        "the suppressor's number goes up to 43201",
        "catalogue.rs",
        "1, 43200",
        "1, 43201",
    ),
    (
        "bound_read_only",
        "router 0>5 goes up to 7",
        "catalogue.rs",
        "number(two(0, 5), 0, 6)",
        "number(two(0, 5), 0, 7)",
    ),
    (
        "step",
        "router 0>8 takes every tenth",
        "catalogue.rs",
        "-60, -30, 10",
        "-60, -30, 1",
    ),
    (
        "wrap_value",
        "a value is cut to 32 bits before it is judged",
        "catalogue.rs",
        "pub fn permits(&self, value: i64) -> bool {",
        "pub fn permits(&self, value: i64) -> bool {\n        let value = i64::from(value as i32);",
    ),
    (
        "settable",
        "router 0>4 can be set",
        "catalogue.rs",
        "read_only(switch(two(0, 4)))",
        "switch(two(0, 4))",
    ),
    (
        "row_order",
        "router rows 2>17 and 2>18 change places",
        "catalogue.rs",
        "    fader(two(2, 17)),\n    switch(two(2, 18)),",
        "    switch(two(2, 18)),\n    fader(two(2, 17)),",
    ),
];
