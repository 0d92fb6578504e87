//! Makes wrong copies of the reference, one for each planted mistake.

use std::fmt::Write;
use std::path::{Path, PathBuf};
use std::{env, fs};

use mistakes::MISTAKES;

mod mistakes;

fn main() {
    let source = Path::new("../reference/src");
    println!("cargo:rerun-if-changed={}", source.display());
    println!("cargo:rerun-if-changed=mistakes");
    let out = PathBuf::from(env::var_os("OUT_DIR").expect("cargo sets OUT_DIR"));
    let mut modules = String::new();
    let mut list = String::from("static PLANTED: &[Planted] = &[\n");
    for (name, about, file, right, wrong) in MISTAKES.into_iter().flatten() {
        plant(source, &out.join(name), file, right, wrong);
        writeln!(
            modules,
            "#[allow(dead_code, unused, clippy::all)]\n#[path = \"{name}/lib.rs\"]\nmod {name};"
        )
        .unwrap();
        writeln!(
            list,
            "Planted {{ name: {name:?}, about: {about:?}, calls: Calls {{ table: {name}::table, \
             port: {name}::port, panel: {name}::panel, turn: {name}::turn, open: {name}::open, \
             close: {name}::close, restore_size: {name}::restore_size, \
             restore_write: {name}::restore_write, log: {name}::log }} }},"
        )
        .unwrap();
    }
    list.push_str("];\n");
    fs::write(out.join("planted.rs"), modules + &list).expect("the list is written");
}

/// Copies the reference and changes one place of one file.
fn plant(source: &Path, copy: &Path, file: &str, right: &str, wrong: &str) {
    fs::create_dir_all(copy).expect("the copy's folder is made");
    for entry in fs::read_dir(source).expect("the reference is there") {
        let path = entry.expect("its files are there").path();
        let mut text = fs::read_to_string(&path).expect("its files are read");
        let name = path.file_name().expect("a file has a name");
        if name == file {
            let places = text.matches(right).count();
            assert_eq!(places, 1, "{file} has {places} places with: {right}");
            text = text.replace(right, wrong);
        }
        fs::write(copy.join(name), text).expect("the copy is written");
    }
}
