//! What the tests share: lists in files with what the program wrote for them.

use std::path::{Path, PathBuf};
use std::{env, fs};

/// A list in a file, and what the program wrote for it: a picture's file, or the line of an error.
pub struct Listed {
    pub list: PathBuf,
    pub is_drawn: bool,
    pub written: Vec<u8>,
}

/// The manifest that TRIRAST_LISTS names has a line for each list: `drawn LIST FILE` or `refused LIST LINE`. Without it
/// there is nothing to compare with.
pub fn manifest() -> Vec<Listed> {
    let path = match env::var_os("TRIRAST_LISTS") {
        Some(path) => PathBuf::from(path),
        None => return Vec::new(),
    };
    let folder = path.parent().and_then(Path::parent).expect("a manifest in a folder of lists").to_path_buf();
    let read = |line: &str| {
        let mut words = line.split(' ');
        let is_drawn = words.next() == Some("drawn");
        let mut path = || folder.join(words.next().expect("a path"));
        Listed { list: path(), is_drawn, written: fs::read(path()).expect("what the program wrote") }
    };
    fs::read_to_string(&path).expect("a manifest").lines().map(read).collect()
}
