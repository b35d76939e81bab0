//! Files that are there whole or not at all: written beside their place and renamed into it.

use std::fs::{self, OpenOptions, Permissions};
use std::io::{self, Write};
use std::os::unix::fs::PermissionsExt;
use std::path::{Path, PathBuf};
use std::sync::OnceLock;
use tempfile::{Builder, TempPath};

/// What is written under another name, hidden, in the folder of its place. Dropped, it is removed.
pub struct Beside {
    file: TempPath,
    place: PathBuf,
}

impl Beside {
    /// Writes the bytes beside the place, to the disk. What is at the place stays; it may be replaced only where it
    /// may be written, and its permissions go over.
    pub fn write(place: &Path, bytes: &[u8]) -> io::Result<Beside> {
        let permissions = match OpenOptions::new().write(true).open(place) {
            Ok(earlier) => earlier.metadata()?.permissions(),
            Err(error) if error.kind() == io::ErrorKind::NotFound => Permissions::from_mode(0o666 & !umask()),
            Err(error) => return Err(error),
        };
        let mut file = named(folder(place))?;
        file.write_all(bytes)?;
        // A file system that has no such rights keeps its own.
        let _ = file.as_file().set_permissions(permissions);
        // A full disk may be told of as late as this.
        file.as_file().sync_all()?;
        Ok(Beside { file: file.into_temp_path(), place: place.to_owned() })
    }

    /// Renames it into its place, over what is there.
    pub fn into_place(self) -> io::Result<()> {
        self.file.persist(&self.place).map_err(|error| error.error)
    }
}

/// Writes a whole file, or leaves what is there.
pub fn save(place: &Path, bytes: &[u8]) -> io::Result<()> {
    Beside::write(place, bytes)?.into_place()
}

/// Whether files can be made in a folder.
pub fn writable(folder: &Path) -> io::Result<()> {
    named(folder)?.close()
}

/// The folder that a file is in.
pub fn folder(file: &Path) -> &Path {
    match file.parent() {
        Some(folder) if folder != Path::new("") => folder,
        _ => Path::new("."),
    }
}

fn named(folder: &Path) -> io::Result<tempfile::NamedTempFile> {
    Builder::new().prefix(".zopykue-").suffix(".part").tempfile_in(folder)
}

/// The permissions that new files do not get. Temporary files are their owner's alone, and results are not.
fn umask() -> u32 {
    static UMASK: OnceLock<u32> = OnceLock::new();
    *UMASK.get_or_init(|| {
        let status = fs::read_to_string("/proc/self/status").unwrap_or_default();
        let digits = status.lines().find_map(|line| line.strip_prefix("Umask:"));
        digits.and_then(|digits| u32::from_str_radix(digits.trim(), 8).ok()).unwrap_or(0o077)
    })
}
