//! Folders of a test's own, and what is in them.

use std::collections::BTreeMap;
use std::fs::{self, Permissions};
use std::os::unix::ffi::OsStrExt;
use std::os::unix::fs::{MetadataExt, PermissionsExt};
use std::path::Path;

/// A fresh folder by this name, for one test alone.
pub fn fresh(name: &str) -> String {
    let path = Path::new(env!("CARGO_TARGET_TMPDIR")).join(name);
    if path.exists() {
        fs::remove_dir_all(&path).expect("the folder of the run before goes");
    }
    fs::create_dir_all(&path).expect("a folder");
    path.into_os_string().into_string().expect("text")
}

/// A file written: its path.
pub fn put(path: String, bytes: &[u8]) -> String {
    fs::write(&path, bytes).expect("a file is written");
    path
}

/// The bytes of a file.
pub fn get(path: &str) -> Vec<u8> {
    fs::read(path).unwrap_or_else(|error| panic!("{path}: {error}"))
}

/// The permission bits of a file or folder.
pub fn mode(path: &str) -> u32 {
    fs::symlink_metadata(path).expect(path).mode() & 0o7777
}

/// Sets them.
pub fn by_mode(path: &str, mode: u32) {
    fs::set_permissions(path, Permissions::from_mode(mode)).expect(path);
}

/// The names in a folder, in order; none where it is not there.
pub fn names(folder: &str) -> Vec<String> {
    let entries = fs::read_dir(folder).into_iter().flatten();
    let name = |entry: fs::DirEntry| entry.file_name().into_string().expect("text");
    let mut names: Vec<String> = entries.filter_map(Result::ok).map(name).collect();
    names.sort();
    names
}

/// All that is in a folder, by its path below it: mode, and the bytes of a file or where a link leads.
pub type Tree = BTreeMap<String, (u32, Vec<u8>)>;

pub fn tree(folder: &str) -> Tree {
    let mut tree = Tree::new();
    for name in names(folder) {
        let path = format!("{folder}/{name}");
        let meta = fs::symlink_metadata(&path).expect("it is there still");
        let kind = meta.file_type();
        let bytes = match () {
            () if kind.is_file() => get(&path),
            () if kind.is_symlink() => fs::read_link(&path).unwrap().as_os_str().as_bytes().into(),
            () => vec![],
        };
        if kind.is_dir() {
            let inner = self::tree(&path).into_iter();
            tree.extend(inner.map(|(below, entry)| (format!("{name}/{below}"), entry)));
        }
        tree.insert(name, (meta.mode(), bytes));
    }
    tree
}

/// What a call gives that must leave a folder as it was.
pub fn kept<T>(folder: &str, call: impl FnOnce() -> T) -> T {
    let before = tree(folder);
    let given = call();
    let after = tree(folder);
    let paths = |tree: &Tree| tree.keys().cloned().collect::<Vec<_>>();
    assert_eq!(paths(&before), paths(&after), "what is in {folder}");
    assert!(before == after, "something in {folder} is changed");
    given
}
