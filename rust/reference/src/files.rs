//! Reading files of limited length, and replacing two files so that a failed
//! write changes neither.

use std::fs::{self, File, Metadata, OpenOptions};
use std::io::{self, ErrorKind, Read, Write};
use std::os::unix::fs::{fchown, MetadataExt, OpenOptionsExt};
use std::path::{Path, PathBuf};

/// The longest file. "files of at most 65,536 bytes each", and with Ticket 7
/// "The program keeps its 65,536."
const MAX_FILE: usize = 65_536;

/// What tells a file from every other, and from itself after a change.
#[derive(PartialEq)]
struct Seen {
    device: u64,
    inode: u64,
    size: u64,
    modified: (i64, i64),
    changed: (i64, i64),
}

impl Seen {
    fn of(file: &Metadata) -> Seen {
        Seen {
            device: file.dev(),
            inode: file.ino(),
            size: file.size(),
            modified: (file.mtime(), file.mtime_nsec()),
            changed: (file.ctime(), file.ctime_nsec()),
        }
    }
}

/// A file as it was read.
pub struct Contents {
    path: PathBuf,
    seen: Seen,
    pub bytes: Vec<u8>,
}

impl Contents {
    /// Why the program does not take the file, if it is too long.
    pub fn too_long(&self) -> Option<String> {
        let is_long = self.bytes.len() > MAX_FILE;
        let why = "longer than 65,536 bytes, the most that this program takes";
        is_long.then(|| about(&self.path, why))
    }
}

/// Never more than one byte above the limit is read. What is no plain file is
/// not opened: the open of a pipe waits for its other end.
pub fn read(path: &Path) -> Result<Contents, String> {
    let failed = |error: io::Error| about(path, &error.to_string());
    let file = fs::metadata(path).map_err(failed)?;
    if !file.is_file() {
        return Err(about(path, "not a plain file"));
    }
    let mut bytes = Vec::new();
    let limit = MAX_FILE as u64 + 1;
    File::open(path)
        .and_then(|file| file.take(limit).read_to_end(&mut bytes))
        .map_err(failed)?;
    Ok(Contents {
        path: path.to_path_buf(),
        seen: Seen::of(&file),
        bytes,
    })
}

/// Replaces the first file, then the second, "each by a new file renamed over
/// the old". Both new files are written out before either is renamed, and both
/// names are then still those of the files that were read.
pub fn replace_both(first: (&Contents, &[u8]), second: (&Contents, &[u8])) -> Result<(), String> {
    let new_first = Replacement::write(&first.0.path, first.1, "new")?;
    let new_second = Replacement::write(&second.0.path, second.1, "new")?;
    let old = [read(&first.0.path)?, read(&second.0.path)?];
    new_first.is_still(&first.0.seen)?;
    new_second.is_still(&second.0.seen)?;
    put_both(&new_first, &new_second, &old)
}

/// Renames both. What fails puts back what is renamed so far, the second file
/// before the first, so that at every moment a taking-back repairs what is there.
fn put_both(
    first: &Replacement,
    second: &Replacement,
    [old_first, old_second]: &[Contents; 2],
) -> Result<(), String> {
    first.rename()?;
    let names = [&first.old, &second.old].map(|path| path.display());
    let message = match first.sync().and_then(|()| second.rename()) {
        Err(message) => message,
        Ok(()) => match second.sync() {
            Ok(()) => return Ok(()),
            Err(message) => {
                let [first, second] = &names;
                let state =
                    format!("{first}: new, as is {second}; they may not be on their device yet");
                put_back(old_second, message, &state)?
            }
        },
    };
    let [first, second] = &names;
    let state = format!("{first}: new, and {second} is old; a taking-back repairs this");
    Err(put_back(old_first, message, &state)?)
}

/// The message so far, where the old bytes are in their place again. Otherwise
/// also why they are not, and what is where.
fn put_back(old: &Contents, message: String, state: &str) -> Result<String, String> {
    let restored = Replacement::write(&old.path, &old.bytes, "old");
    match restored.and_then(|restored| restored.rename().map(|()| restored.sync())) {
        Ok(Ok(())) => Ok(message),
        Ok(Err(unsynced)) => Ok(format!("{message}\n{unsynced}")),
        Err(again) => Err(format!("{message}\n{again}\n{state}")),
    }
}

/// A new file beside the one that it may replace. It is removed unless it was
/// renamed.
struct Replacement {
    new: PathBuf,
    old: PathBuf,
}

impl Replacement {
    fn write(path: &Path, bytes: &[u8], role: &str) -> Result<Replacement, String> {
        let failed = |error: io::Error| about(path, &error.to_string());
        // Through a link, the file behind it is replaced and not the link.
        let old = fs::canonicalize(path).map_err(failed)?;
        let attributes = fs::metadata(&old).map_err(failed)?;
        if !attributes.is_file() {
            return Err(about(path, "is not a plain file and cannot be replaced"));
        }
        // A rename does not ask whether the file itself may be written.
        OpenOptions::new().write(true).open(&old).map_err(failed)?;
        let name = old.file_name().unwrap_or_default().to_string_lossy();
        let new = old.with_file_name(format!(".{name}.{}.{role}", std::process::id()));
        // Until it has its mode, nobody else can open it.
        let mut file = OpenOptions::new()
            .write(true)
            .create_new(true)
            .mode(0o600)
            .open(&new)
            .map_err(failed)?;
        let replacement = Replacement { new, old };
        // Owner and group are kept where the system lets the program.
        let _ = fchown(&file, Some(attributes.uid()), Some(attributes.gid()));
        file.set_permissions(attributes.permissions())
            .and_then(|()| file.write_all(bytes))
            .and_then(|()| file.sync_all())
            .map_err(failed)?;
        Ok(replacement)
    }

    /// Whether the name is still that of the file that was read.
    fn is_still(&self, seen: &Seen) -> Result<(), String> {
        let now = fs::metadata(&self.old).map_err(|error| about(&self.old, &error.to_string()))?;
        if Seen::of(&now) == *seen {
            return Ok(());
        }
        Err(about(
            &self.old,
            "changed by another process, nothing is replaced",
        ))
    }

    fn rename(&self) -> Result<(), String> {
        fs::rename(&self.new, &self.old).map_err(|error| about(&self.old, &error.to_string()))
    }

    /// Has the name on its device, so that what is renamed first stays first.
    fn sync(&self) -> Result<(), String> {
        sync_folder(&self.old).map_err(|error| about(&self.old, &error.to_string()))
    }
}

impl Drop for Replacement {
    /// After a rename there is nothing left to remove, and that is no error.
    fn drop(&mut self) {
        let _ = fs::remove_file(&self.new);
    }
}

/// Has the folder of a path on its device, where the file system can, and where
/// the folder may be read.
fn sync_folder(path: &Path) -> io::Result<()> {
    let folder = match File::open(path.parent().unwrap_or(path)) {
        Err(error) if error.kind() == ErrorKind::PermissionDenied => return Ok(()),
        opened => opened?,
    };
    match folder.sync_all() {
        Err(error) if NOT_SUPPORTED.contains(&error.raw_os_error()) => Ok(()),
        synced => synced,
    }
}

/// EINVAL and EOPNOTSUPP.
const NOT_SUPPORTED: [Option<i32>; 2] = [Some(22), Some(95)];

fn about(path: &Path, what: &str) -> String {
    format!("{}: {what}", path.display())
}
