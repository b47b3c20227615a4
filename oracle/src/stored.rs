//! The texts that are stored in the repository.
use std::fs;
use std::path::{Path, PathBuf};

fn repository() -> PathBuf {
    Path::new(env!("CARGO_MANIFEST_DIR")).join("..")
}

/// The images of crates/vectors/stdin, whose form tools/vectors describes.
pub fn vectors() -> Vec<Vec<u8>> {
    let data = fs::read(repository().join("crates/vectors/stdin")).expect("the stored vectors");
    let (mut at, mut found) = (0, Vec::new());
    while at < data.len() {
        let end = at + data[at..].iter().position(|&b| b == b'\n').unwrap();
        let line = std::str::from_utf8(&data[at..end]).unwrap();
        at = end + 1;
        if line.starts_with("-- ") {
            let length = |digits: &str| usize::from_str_radix(digits, 16).unwrap();
            found.push(data[at..at + length(&line[9..14])].to_vec());
            at += length(&line[9..14]) + length(&line[15..18]);
        }
    }
    found
}

/// Where the examples' images are, in the order of their names.
pub fn examples() -> Vec<PathBuf> {
    let entries = fs::read_dir(repository().join("examples")).expect("the examples");
    let paths = entries.map(|entry| entry.unwrap().path());
    let mut found: Vec<PathBuf> = paths.filter(|path| path.extension().is_some_and(|extension| extension == "image")).collect();
    found.sort();
    found
}
