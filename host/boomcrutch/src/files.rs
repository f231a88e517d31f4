//! Files: read and written without following a symbolic link in any component of a path.
//!
//! A path is walked component by component, from the working folder or the root, each one opened in the folder before it
//! and looked at. So what was looked at is what is used, whatever is renamed meanwhile.

use std::ffi::{CStr, CString};
use std::fs::{File, Permissions};
use std::io::{self, ErrorKind, Read, Write};
use std::os::fd::AsFd;
use std::os::unix::ffi::OsStrExt;
use std::os::unix::fs::MetadataExt;
use std::path::Path;

use command::arguments::shown;
use proved::LIMIT;

use crate::system::{self, Purpose};

/// What was read, and from where.
pub struct Input {
    /// The file's name as it is shown.
    pub name: String,
    pub bytes: Vec<u8>,
}

/// Reads a file. One longer than texts and sheets may be is read just so far that it is too long.
pub fn read(path: &Path) -> Result<Input, String> {
    if path == Path::new("-") {
        return Err("only `list` reads standard input; a file of the name - is ./-".to_string());
    }
    let name = shown(path);
    let place = Place::of(path)?;
    let seen = place.look().map_err(|error| format!("{name}: {error}"))?;
    let seen = seen.ok_or(format!("{name}: there is no such file"))?;
    regular(&seen, &name)?;
    let bytes = place.read(&seen).map_err(|error| format!("{name}: {error}"))?;
    Ok(Input { name, bytes })
}

/// Reads standard input in the same way.
pub fn read_standard_input() -> Result<Input, String> {
    let bytes = read_some(io::stdin().lock(), 0).map_err(|error| format!("standard input: {error}"))?;
    Ok(Input { name: "-".to_string(), bytes })
}

fn read_some(source: impl Read, expected: u64) -> io::Result<Vec<u8>> {
    let limit = LIMIT as u64 + 1;
    let mut bytes = Vec::with_capacity(expected.min(limit) as usize);
    source.take(limit).read_to_end(&mut bytes)?;
    Ok(bytes)
}

/// Whether this is a file, and not a link, a folder or a device.
fn regular(file: &File, name: &str) -> Result<(), String> {
    let kind = file.metadata().map_err(|error| format!("{name}: {error}"))?.file_type();
    if kind.is_symlink() {
        return Err(link(name));
    }
    match (kind.is_file(), kind.is_dir()) {
        (true, _) => Ok(()),
        (_, true) => Err(format!("{name}: is a folder")),
        _ => Err(format!("{name}: is no regular file")),
    }
}

fn link(name: &str) -> String {
    format!("{name}: is a symbolic link, and none is followed")
}

/// A name in a folder that is held open.
struct Place {
    folder: File,
    name: CString,
}

impl Place {
    /// Walks to the folder that a path's last component is in.
    fn of(path: &Path) -> Result<Place, String> {
        let bytes = path.as_os_str().as_bytes();
        let name_starts = bytes.iter().rposition(|byte| *byte == b'/').map_or(0, |slash| slash + 1);
        let (folders, name) = bytes.split_at(name_starts);
        if matches!(name, b"" | b"." | b"..") {
            return Err(format!("{}: is no file's name", shown(path)));
        }
        let first = if bytes.starts_with(b"/") { c"/" } else { c"." };
        let mut folder =
            system::open(None, first, Purpose::Look).map_err(|error| format!("{}: {error}", shown(path)))?;
        let mut end = 0;
        for component in folders.split(|byte| *byte == b'/') {
            end += component.len() + 1;
            if !component.is_empty() {
                let reached = shown(std::ffi::OsStr::from_bytes(&bytes[..end - 1]));
                folder = step(&folder, component, &reached)?;
            }
        }
        Ok(Place { folder, name: text(name)? })
    }

    /// What has the name, opened only to look at; none if nothing has it.
    fn look(&self) -> io::Result<Option<File>> {
        match system::open(Some(self.folder.as_fd()), &self.name, Purpose::Look) {
            Ok(file) => Ok(Some(file)),
            Err(error) if error.kind() == ErrorKind::NotFound => Ok(None),
            Err(error) => Err(error),
        }
    }

    /// Reads the file that was looked at before.
    fn read(&self, seen: &File) -> io::Result<Vec<u8>> {
        let file = system::open(Some(self.folder.as_fd()), &self.name, Purpose::Read)?;
        let (before, now) = (seen.metadata()?, file.metadata()?);
        if (before.dev(), before.ino()) != (now.dev(), now.ino()) {
            return Err(io::Error::other("another file took its name just now"));
        }
        read_some(file, now.len())
    }
}

/// From a folder into the next one; `reached` is the path so far.
fn step(folder: &File, component: &[u8], reached: &str) -> Result<File, String> {
    let say = |error: io::Error| format!("{reached}: {error}");
    let next = system::open(Some(folder.as_fd()), &text(component)?, Purpose::Look).map_err(say)?;
    let kind = next.metadata().map_err(say)?.file_type();
    if kind.is_symlink() {
        return Err(link(reached));
    }
    match kind.is_dir() {
        true => Ok(next),
        false => Err(format!("{reached}: is no folder")),
    }
}

fn text(component: &[u8]) -> Result<CString, String> {
    CString::new(component).map_err(|_| "a path has no zero byte".to_string())
}

/// Where a new file is to be.
pub struct Output {
    /// The path as it is shown.
    name: String,
    place: Place,
    /// The folder again, to be synced.
    folder: File,
    replace: bool,
    /// Those of the file that is replaced.
    permissions: Option<Permissions>,
}

impl Output {
    /// Looks at the place before any work: a file may stand there only if it is to be replaced.
    pub fn prepare(path: &Path, replace: bool) -> Result<Output, String> {
        if path == Path::new("-") {
            return Err("no sheet goes to standard output; a file of the name - is ./-".to_string());
        }
        let name = shown(path);
        let say = |error: io::Error| format!("{name}: {error}");
        let place = Place::of(path)?;
        let mut permissions = None;
        if let Some(there) = place.look().map_err(say)? {
            regular(&there, &name)?;
            if !replace {
                return Err(format!("{name}: is there already (--force replaces it)"));
            }
            permissions = Some(there.metadata().map_err(say)?.permissions());
        }
        let folder = system::open(Some(place.folder.as_fd()), c".", Purpose::Sync).map_err(say)?;
        Ok(Output { name, place, folder, replace, permissions })
    }

    /// Writes the file: whole, or not at all. At every moment the name has its old state or its new one.
    pub fn write(self, bytes: &[u8]) -> Result<(), String> {
        let say = |error: io::Error| format!("{}: {error}", self.name);
        system::size_limit_is_an_error();
        let mut new = Temporary::create(&self.place.folder).map_err(say)?;
        new.fill(bytes, self.permissions.clone()).map_err(say)?;
        new.take_name(&self.place.name, self.replace).map_err(|error| match error.kind() {
            ErrorKind::AlreadyExists => format!("{}: somebody made it just now (--force replaces it)", self.name),
            ErrorKind::InvalidInput => format!("{}: this file system needs --force ({error})", self.name),
            _ => say(error),
        })?;
        match self.folder.sync_all() {
            // A file system that cannot sync folders says so; there is no more to be done.
            Err(error) if error.kind() != ErrorKind::InvalidInput => {
                Err(format!("{}: is written, but its folder could not be synced: {error}", self.name))
            }
            _ => Ok(()),
        }
    }
}

/// A new file under a name that nobody has, which goes again unless it takes its true name.
struct Temporary<'f> {
    folder: &'f File,
    name: CString,
    file: File,
    named: bool,
}

impl Temporary<'_> {
    fn create(folder: &File) -> io::Result<Temporary<'_>> {
        let mut tries = 0..100;
        loop {
            let number = tries.next();
            let name = CString::new(format!(".boomcrutch-{}-{}", std::process::id(), number.unwrap_or(100)))?;
            match system::open(Some(folder.as_fd()), &name, Purpose::Create) {
                Ok(file) => return Ok(Temporary { folder, name, file, named: false }),
                Err(error) if error.kind() == ErrorKind::AlreadyExists && number.is_some() => {}
                Err(error) => return Err(error),
            }
        }
    }

    /// Writes all bytes, and waits until they are on the disk.
    fn fill(&mut self, bytes: &[u8], permissions: Option<Permissions>) -> io::Result<()> {
        self.file.write_all(bytes)?;
        if let Some(permissions) = permissions {
            self.file.set_permissions(permissions)?;
        }
        self.file.sync_all()
    }

    fn take_name(&mut self, name: &CStr, replace: bool) -> io::Result<()> {
        system::rename(self.folder.as_fd(), &self.name, name, replace)?;
        self.named = true;
        Ok(())
    }
}

impl Drop for Temporary<'_> {
    fn drop(&mut self) {
        if !self.named {
            // The error that brought us here is the one to tell.
            let _ = system::remove(self.folder.as_fd(), &self.name);
        }
    }
}
