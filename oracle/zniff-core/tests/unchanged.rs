//! The text that is compiled is the source's, byte for byte, but for the part that we append.

use std::collections::BTreeMap;
use std::fs;
use std::path::Path;
use std::process::Command;

const HERE: &str = env!("CARGO_MANIFEST_DIR");

/// Every file below `root`: its name there, and its text.
fn tree(root: &Path) -> BTreeMap<String, Vec<u8>> {
    let mut files = BTreeMap::new();
    let mut folders = vec![root.to_path_buf()];
    while let Some(folder) = folders.pop() {
        for entry in fs::read_dir(&folder).unwrap() {
            let path = entry.unwrap().path();
            if path.is_dir() {
                folders.push(path);
            } else {
                let name = path.strip_prefix(root).unwrap().to_str().unwrap();
                files.insert(name.to_string(), fs::read(&path).unwrap());
            }
        }
    }
    files
}

#[test]
fn the_copies_have_the_sums_of_the_source() {
    let copies = Path::new(HERE).join("../zniff-rs");
    let sums = fs::read_to_string(copies.join("SHA256SUMS")).unwrap();
    let mut listed: Vec<&str> = sums.lines().map(|line| &line[66..]).collect();
    listed.push("SHA256SUMS");
    listed.sort_unstable();
    assert!(tree(&copies).keys().eq(listed.iter()), "a copy is not listed, or missing");

    let checked = Command::new("sha256sum")
        .args(["--check", "--strict", "SHA256SUMS"])
        .current_dir(copies)
        .output()
        .unwrap();
    assert!(checked.status.success(), "{}", String::from_utf8_lossy(&checked.stdout));
}

#[test]
fn the_built_text_is_the_copy_and_what_we_append() {
    let mut expected = tree(&Path::new(HERE).join("../zniff-rs/crates/core/src"));
    for (name, text) in tree(&Path::new(HERE).join("accessors")) {
        let copy = expected.get_mut(&name).expect("an accessor belongs to a file of the source");
        copy.extend(text);
    }
    for (name, text) in tree(&Path::new(HERE).join("surroundings")) {
        assert!(expected.insert(name, text).is_none(), "a surrounding replaces the source's text");
    }
    assert!(expected == tree(Path::new(zniff_core::BUILT)));
}

#[test]
fn what_is_appended_is_one_module() {
    for (name, text) in tree(&Path::new(HERE).join("accessors")) {
        let text = String::from_utf8(text).unwrap();
        let outside: Vec<&str> =
            text.lines().filter(|line| !line.is_empty() && !line.starts_with("    ")).collect();
        let [comment, "pub mod oracle {", "}"] = outside[..] else {
            panic!("{name}: more than the module `oracle`: {outside:?}");
        };
        assert!(comment.starts_with("///"));
    }
}
