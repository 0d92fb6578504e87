//! Wishes from a saved room: modules as they were then.

use egrivundo::{Room, WishError};

use crate::given::Given;
use crate::wish_file::Wish;

/// The wish that modules with these labels are as in the room `then`, which
/// the file `name` has.
pub fn wish<'a>(
    room: &'a Room,
    then: &Room,
    labels: &[String],
    name: &str,
) -> Result<Wish<'a>, String> {
    let mut core = egrivundo::Wish::from_present(room);
    for label in labels {
        core = core.as_in(then, label).map_err(|error| match error {
            WishError::NoModule { saved: true, .. } => {
                let labels = known(then);
                format!("{name}: no module bears the label \"{label}\" ({labels})")
            }
            WishError::NoModule { .. } => {
                let labels = known(room);
                format!("no module of the room bears the label \"{label}\" ({labels})")
            }
            other => format!("{name}: {other}"),
        })?;
    }
    Ok(Wish {
        core,
        given: Given::default(),
    })
}

/// The labels of a room, in words.
fn known(room: &Room) -> String {
    let quoted = |label: &[u8]| format!("\"{}\"", String::from_utf8_lossy(label));
    let labels: Vec<String> = room.modules().map(|module| quoted(module.label)).collect();
    match labels.len() {
        0 => "it has no modules".to_string(),
        _ => format!("there are {}", labels.join(", ")),
    }
}
