//! Reading and writing files, with errors in words.
use std::ffi::OsStr;
use std::fs::{self, File, OpenOptions};
use std::io::{self, ErrorKind, Read, Write};
use std::os::unix::fs::MetadataExt;
use std::path::{Path, PathBuf};

/// So many bytes of a file are read at most: more than a plan may have in words or as bytes, so that what is longer is turned down.
const MOST_BYTES: u64 = 1 << 20;

/// What is read in place of a file.
const STANDARD_INPUT: &str = "-";

/// Whether a word stands for standard input or output.
pub fn is_standard(name: &OsStr) -> bool {
    name == STANDARD_INPUT
}

/// A file's name as it is shown.
pub fn shown(name: &OsStr) -> String {
    if is_standard(name) {
        "<standard input>".to_string()
    } else {
        name.to_string_lossy().replace(char::is_control, "·")
    }
}

/// The bytes of a file, or of standard input for `-`; or a line that says why there are none.
pub fn read(name: &OsStr, input: &mut dyn Read) -> Result<Vec<u8>, String> {
    let read = if is_standard(name) {
        read_from(input)
    } else {
        File::open(name).and_then(read_from)
    };
    read.map_err(|error| format!("{}: cannot be read: {}", shown(name), reason(&error)))
}

fn read_from(input: impl Read) -> io::Result<Vec<u8>> {
    let mut bytes = Vec::new();
    input.take(MOST_BYTES).read_to_end(&mut bytes)?;
    Ok(bytes)
}

/// Writes a file that may be there already, but is not the one that was read by its name. The old one stays until the new one is whole.
pub fn write(name: &OsStr, bytes: &[u8], read: &OsStr) -> Result<(), String> {
    if !is_standard(read) && same(name, read) {
        return Err(format!(
            "{}: not written over: it was read from",
            shown(name)
        ));
    }
    let written = if Path::new(name).is_file() {
        replaced(name, bytes)
    } else {
        fs::write(name, bytes)
    };
    written.map_err(|error| not_written(name, &error))
}

/// Whether two names are those of one file.
fn same(first: &OsStr, second: &OsStr) -> bool {
    match (fs::metadata(first), fs::metadata(second)) {
        (Ok(first), Ok(second)) => (first.dev(), first.ino()) == (second.dev(), second.ino()),
        _ => false,
    }
}

/// Writes a file that must not be there yet.
pub fn create(name: &OsStr, bytes: &[u8]) -> Result<(), String> {
    created(Path::new(name), bytes).map_err(|error| not_written(name, &error))
}

/// A new file, which is removed where it cannot be written whole.
fn created(path: &Path, bytes: &[u8]) -> io::Result<()> {
    let mut file = OpenOptions::new().write(true).create_new(true).open(path)?;
    let written = file.write_all(bytes).and_then(|()| file.sync_all());
    unless_removed(path, written)
}

/// Removes a file of ours where something went wrong with it. That it stays would be no reason to hide what went wrong.
fn unless_removed(path: &Path, done: io::Result<()>) -> io::Result<()> {
    if done.is_err() {
        let _ = fs::remove_file(path);
    }
    done
}

/// Replaces what a file holds. The old file stays until the new one is whole: it is written beside it and then renamed.
pub fn replace(name: &OsStr, bytes: &[u8]) -> Result<(), String> {
    replaced(name, bytes).map_err(|error| not_written(name, &error))
}

/// The new file has the permissions of the old one, which has to be one that may be written.
fn replaced(name: &OsStr, bytes: &[u8]) -> io::Result<()> {
    let path = fs::canonicalize(name)?;
    let metadata = fs::metadata(&path)?;
    if !metadata.is_file() {
        return Err(io::Error::other("it is no regular file"));
    }
    let permissions = metadata.permissions();
    OpenOptions::new().write(true).open(&path)?;
    let beside = beside(&path);
    created(&beside, bytes)?;
    let moved = fs::set_permissions(&beside, permissions).and_then(|()| fs::rename(&beside, &path));
    unless_removed(&beside, moved)
}

/// A hidden name in the same folder.
fn beside(path: &Path) -> PathBuf {
    path.with_file_name(format!(".tuft-{}", std::process::id()))
}

fn not_written(name: &OsStr, error: &io::Error) -> String {
    format!("{}: cannot be written: {}", shown(name), reason(error))
}

/// Why reading or writing failed.
pub fn reason(error: &io::Error) -> String {
    match error.kind() {
        ErrorKind::NotFound => "there is no such file or folder".to_string(),
        ErrorKind::PermissionDenied => "it is not permitted".to_string(),
        ErrorKind::IsADirectory => "it is a folder".to_string(),
        ErrorKind::AlreadyExists => "it is there already".to_string(),
        ErrorKind::StorageFull => "there is no space left".to_string(),
        ErrorKind::BrokenPipe => "nobody reads it any more".to_string(),
        _ => error.to_string(),
    }
}
