//! Files written beside their places, and put there.

use std::fs::{self, File, OpenOptions};
use std::io::{self, Write};
use std::path::{Path, PathBuf};

use crate::signals;

/// The folder of a file.
pub fn folder_of(path: &Path) -> &Path {
    match path.parent() {
        Some(folder) if !folder.as_os_str().is_empty() => folder,
        _ => Path::new("."),
    }
}

/// A file beside a place, in the same folder. It is gone when this is dropped, and when a signal ends the program.
struct Beside(PathBuf);

impl Beside {
    /// A name beside a place that no file has. It is hidden, and short enough however long the other is.
    fn free_name(place: &Path, attempt: u32) -> PathBuf {
        let own: String = place.file_name().unwrap_or_default().to_string_lossy().chars().take(40).collect();
        folder_of(place).join(format!(".{own}.station-{}-{attempt}", std::process::id()))
    }

    fn attempt<T>(place: &Path, make: impl Fn(&Path) -> io::Result<T>) -> io::Result<(Beside, T)> {
        let mut last = io::Error::from(io::ErrorKind::AlreadyExists);
        for attempt in 0..100 {
            let path = Beside::free_name(place, attempt);
            // Listed before it is there: a signal in between would leave it.
            signals::list(&path);
            match make(&path) {
                Ok(made) => return Ok((Beside(path), made)),
                Err(error) => {
                    signals::unlist(&path);
                    if error.kind() != io::ErrorKind::AlreadyExists {
                        return Err(error);
                    }
                    last = error;
                }
            }
        }
        Err(last)
    }

    fn create(place: &Path) -> io::Result<(Beside, File)> {
        Beside::attempt(place, |path| OpenOptions::new().write(true).create_new(true).open(path))
    }

    /// A second name of what stands in a place, to have it back if need be; nothing if nothing stands there.
    fn second_name(place: &Path) -> io::Result<Option<Beside>> {
        match Beside::attempt(place, |path| fs::hard_link(place, path)) {
            Ok((beside, ())) => Ok(Some(beside)),
            Err(error) if error.kind() == io::ErrorKind::NotFound => Ok(None),
            // Some file systems have no second names; a copy does as well.
            Err(_) => {
                let (beside, mut copy) = Beside::create(place)?;
                io::copy(&mut File::open(place)?, &mut copy)?;
                copy.set_permissions(fs::metadata(place)?.permissions())?;
                copy.sync_all()?;
                Ok(Some(beside))
            }
        }
    }
}

impl Drop for Beside {
    fn drop(&mut self) {
        // It may have been renamed, and is then not there.
        let _ = fs::remove_file(&self.0);
        signals::unlist(&self.0);
    }
}

/// A file that is written and waits to be put in its place.
pub struct Staged {
    place: PathBuf,
    beside: Beside,
}

impl Staged {
    /// Writes bytes beside a place, with the permissions of the file that is to be replaced.
    pub fn write(place: &Path, bytes: &[u8], permissions: Option<&fs::Permissions>) -> io::Result<Staged> {
        let (beside, mut file) = Beside::create(place)?;
        file.write_all(bytes)?;
        if let Some(permissions) = permissions {
            file.set_permissions(permissions.clone())?;
        }
        file.sync_all()?;
        Ok(Staged { place: place.to_owned(), beside })
    }

    /// Puts the file in its place; what stands there is replaced only with `force`.
    pub fn place(self, force: bool) -> io::Result<Placed> {
        let Staged { place, beside } = self;
        let before = if force { Beside::second_name(&place)? } else { None };
        if force {
            fs::rename(&beside.0, &place)?;
        } else {
            // A link fails where a file has come to stand meanwhile; renaming would replace it.
            match fs::hard_link(&beside.0, &place) {
                Err(error) if error.kind() == io::ErrorKind::AlreadyExists || place.exists() => return Err(error),
                Err(_) => fs::rename(&beside.0, &place)?,
                Ok(()) => {}
            }
        }
        // The first of two files has to be there for good before the second is. Some systems cannot tell.
        let _ = File::open(folder_of(&place)).and_then(|folder| folder.sync_all());
        Ok(Placed { place, before })
    }
}

/// A file in its place, and what stood there before.
pub struct Placed {
    place: PathBuf,
    before: Option<Beside>,
}

impl Placed {
    /// Has the place as it was.
    pub fn undo(self) {
        let _ = match &self.before {
            Some(before) => fs::rename(&before.0, &self.place),
            None => fs::remove_file(&self.place),
        };
    }
}
