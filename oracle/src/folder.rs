//! The files that commands name, from the folder in which the judge runs. The judge reads what is there and writes nothing:
//! what a `save-off` says is kept beside, and found again by a later `load-off` or `load-stl`.

use std::collections::HashMap;
use std::ffi::OsStr;
use std::fs::{self, File, OpenOptions};
use std::io::{ErrorKind, Read};
use std::os::unix::ffi::OsStrExt;
use std::path::{Path, PathBuf};

/// The longest file that is loaded: 1 MiB.
pub const LONGEST_FILE: usize = 1 << 20;

/// A path has so many bytes at most.
const LONGEST_PATH: usize = 4_095;

/// What is put behind a path for the file beside it, which is written first.
const BESIDE: &[u8] = b".part";

/// What was saved, by the folder's own path and the name in it.
#[derive(Default)]
pub struct Folder {
    saved: HashMap<PathBuf, Vec<u8>>,
}

fn as_path(bytes: &[u8]) -> &Path {
    Path::new(OsStr::from_bytes(bytes))
}

/// One name for a file that may not be there, in a folder that is.
fn place_of(path: &[u8]) -> Option<PathBuf> {
    let slash = path.iter().rposition(|&byte| byte == b'/');
    let (folder, name) = match slash {
        Some(0) => (&b"/"[..], &path[1..]),
        Some(at) => (&path[..at], &path[at + 1..]),
        None => (&b"."[..], path),
    };
    let named = !matches!(name, b"" | b"." | b"..");
    let folder = fs::canonicalize(as_path(folder)).ok()?;
    (named && folder.is_dir()).then(|| folder.join(as_path(name)))
}

/// Does nothing stand there, or a file that can be written? A device or a pipe is none to be replaced.
fn replaceable(path: &[u8]) -> bool {
    match OpenOptions::new()
        .read(true)
        .write(true)
        .open(as_path(path))
    {
        Ok(file) => file.metadata().is_ok_and(|about| about.is_file()),
        Err(error) => error.kind() == ErrorKind::NotFound,
    }
}

impl Folder {
    /// The bytes of a file; `None` where they cannot be read or are too many.
    pub fn read(&self, path: &[u8]) -> Option<Vec<u8>> {
        if path.len() > LONGEST_PATH {
            return None;
        }
        if let Some(bytes) = place_of(path).and_then(|place| self.saved.get(&place)) {
            return Some(bytes.clone());
        }
        let mut bytes = Vec::new();
        let file = File::open(as_path(path)).ok()?;
        let most = LONGEST_FILE as u64 + 1;
        file.take(most).read_to_end(&mut bytes).ok()?;
        (bytes.len() <= LONGEST_FILE).then_some(bytes)
    }

    /// Keeps what is saved, and says whether it could have been written: beside the path first, then in its place.
    pub fn save(&mut self, path: &[u8], bytes: Vec<u8>) -> bool {
        let beside = [path, BESIDE].concat();
        let Some(place) = place_of(path).filter(|_| beside.len() <= LONGEST_PATH) else {
            return false;
        };
        let free = place_of(&beside).is_some_and(|beside| {
            !self.saved.contains_key(&beside) && fs::symlink_metadata(beside).is_err()
        });
        let can =
            free && !path.contains(&0) && (self.saved.contains_key(&place) || replaceable(path));
        if can {
            self.saved.insert(place, bytes);
        }
        can
    }
}
