//! Where the output goes: to standard output, or to the file that `-o` names.

use std::ffi::{c_char, c_int, OsStr};
use std::fs::{self, File, Metadata, OpenOptions};
use std::io::{self, ErrorKind, Write};
use std::os::fd::AsFd;
use std::os::unix::fs::{fchown, MetadataExt};
use std::path::{Path, PathBuf};

/// How many links a path may lead over, as in Linux.
const LINKS: usize = 40;

/// Writes to a file, or to standard output.
pub fn put(file: Option<&OsStr>, bytes: &[u8]) -> io::Result<()> {
    match file {
        // As a file: `Stdout` takes an output that is not open for writing as written.
        None => File::from(io::stdout().as_fd().try_clone_to_owned()?).write_all(bytes),
        Some(path) => match regular(Path::new(path)) {
            Some(file) => replace(&file, bytes),
            None => fill(File::create(path)?, bytes),
        },
    }
}

/// The regular file at the end of a path's links, also where it is not there yet. None for all that is opened as it stands: what
/// is no regular file, an open file by a name below /proc, as /dev/stdout is, and what cannot be opened.
fn regular(path: &Path) -> Option<PathBuf> {
    let mut path = path.to_path_buf();
    for _ in 0..LINKS {
        let name = path.file_name()?;
        // `x/` and `x/.` name no file.
        path.as_os_str().as_encoded_bytes().ends_with(name.as_encoded_bytes()).then_some(())?;
        let folder = path.parent().filter(|folder| !folder.as_os_str().is_empty()).unwrap_or(Path::new("."));
        let folder = fs::canonicalize(folder).ok().filter(|folder| !folder.starts_with("/proc"))?;
        let file = folder.join(name);
        path = match fs::symlink_metadata(&file) {
            Ok(found) if found.is_symlink() => folder.join(fs::read_link(&file).ok()?),
            Ok(found) => return found.is_file().then_some(file),
            Err(error) => return (error.kind() == ErrorKind::NotFound).then_some(file),
        };
    }
    None
}

/// Writes a new file beside a file and puts it in its place. Where that fails the old one stays as it was.
fn replace(file: &Path, bytes: &[u8]) -> io::Result<()> {
    // A file that may not be written is not replaced either.
    let old = match OpenOptions::new().write(true).open(file) {
        Ok(old) => Some(old.metadata()?),
        Err(error) if error.kind() == ErrorKind::NotFound => None,
        Err(error) => return Err(error),
    };
    let (path, new) = beside(file)?;
    let alike = old.map_or(Ok(()), |old| liken(&new, &old));
    let done = alike.and_then(|()| fill(new, bytes)).and_then(|()| fs::rename(&path, file));
    if done.is_err() {
        let _ = fs::remove_file(&path);
    }
    done
}

/// A new file in another's folder, under a name that none has.
fn beside(file: &Path) -> io::Result<(PathBuf, File)> {
    let mut number = 0;
    loop {
        let path = file.with_file_name(format!(".ward-{}-{number}", std::process::id()));
        match File::create_new(&path) {
            Err(error) if error.kind() == ErrorKind::AlreadyExists => number += 1,
            made => return made.map(|new| (path, new)),
        }
    }
}

/// Gives a new file the old one's permissions, and its owner and group as far as that is allowed.
fn liken(new: &File, old: &Metadata) -> io::Result<()> {
    let _ = fchown(new, Some(old.uid()), Some(old.gid())).or_else(|_| fchown(new, None, Some(old.gid())));
    new.set_permissions(old.permissions())
}

/// Writes all, down to the disk; a device or a pipe has none.
fn fill(mut file: File, bytes: &[u8]) -> io::Result<()> {
    file.write_all(bytes)?;
    file.sync_all().or_else(|error| if error.kind() == ErrorKind::InvalidInput { Ok(()) } else { Err(error) })
}

/// Rust's runtime puts /dev/null in the place of a closed standard input or output, where all is empty and nothing fails. So before
/// it starts a folder is put there, which can be neither read nor written as a file.
extern "C" fn hold_closed() {
    extern "C" {
        fn fcntl(number: c_int, command: c_int, ...) -> c_int;
        fn open(path: *const c_char, flags: c_int, ...) -> c_int;
    }
    const F_GETFD: c_int = 1;
    const O_RDONLY: c_int = 0;
    for number in [0, 1] {
        // SAFETY: the path is a C string, and the other call only asks. A file gets the lowest number that is free, which is this.
        unsafe {
            if fcntl(number, F_GETFD) < 0 {
                open(c"/".as_ptr(), O_RDONLY);
            }
        }
    }
}

/// What is said of a standard input in whose place a folder stands.
pub fn unread(error: io::Error) -> io::Error {
    match error.kind() {
        ErrorKind::IsADirectory => io::Error::other("it is closed, or a folder"),
        _ => error,
    }
}

/// The linker's list of what runs before the runtime.
#[used]
#[link_section = ".init_array"]
static BEFORE: extern "C" fn() = hold_closed;
