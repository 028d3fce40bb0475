//! Lays the source's text, our surroundings and our accessors together in `OUT_DIR/core`.

use std::fs;
use std::io::Write;
use std::path::{Path, PathBuf};

const SOURCE: &str = "../zniff-rs/crates/core/src";
const SURROUNDINGS: &str = "surroundings";
const ACCESSORS: &str = "accessors";

fn main() {
    let built =
        PathBuf::from(std::env::var_os("OUT_DIR").expect("cargo sets OUT_DIR")).join("core");
    if built.exists() {
        fs::remove_dir_all(&built).expect("the last build's text can be removed");
    }
    for tree in [SOURCE, SURROUNDINGS, ACCESSORS] {
        println!("cargo::rerun-if-changed={tree}");
    }
    for_each_file(Path::new(SOURCE), &mut |name, text| put_new(&built.join(name), text));
    for_each_file(Path::new(SURROUNDINGS), &mut |name, text| put_new(&built.join(name), text));
    for_each_file(Path::new(ACCESSORS), &mut |name, text| append(&built.join(name), text));
}

/// Calls `each` with the name below `root` and the text of every file there.
fn for_each_file(root: &Path, each: &mut impl FnMut(&Path, &[u8])) {
    let mut folders = vec![root.to_path_buf()];
    while let Some(folder) = folders.pop() {
        for entry in fs::read_dir(&folder).expect("a folder of this crate") {
            let path = entry.expect("an entry of it").path();
            if path.is_dir() {
                folders.push(path);
            } else {
                let name = path.strip_prefix(root).expect("a path below the root");
                each(name, &fs::read(&path).expect("a file of this crate"));
            }
        }
    }
}

/// Writes a file that must not be there yet: our surroundings replace no text of the source.
fn put_new(path: &Path, text: &[u8]) {
    fs::create_dir_all(path.parent().expect("a file in a folder")).expect("a folder in OUT_DIR");
    let file = fs::File::create_new(path);
    file.and_then(|mut file| file.write_all(text))
        .unwrap_or_else(|e| panic!("{}: {e}", path.display()));
}

/// Appends to a file that must be there: an accessor belongs to a file of the source.
fn append(path: &Path, text: &[u8]) {
    let file = fs::OpenOptions::new().append(true).open(path);
    file.and_then(|mut file| file.write_all(text))
        .unwrap_or_else(|e| panic!("{}: {e}", path.display()));
}
