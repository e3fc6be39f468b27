//! Folders locked while two files are put in place in them, so that two writers do not mix their pairs.

use std::collections::BTreeSet;
use std::fs::{File, TryLockError};
use std::io;
use std::path::Path;
use std::thread::sleep;
use std::time::{Duration, Instant};

/// How long another writer is waited for. It needs some thousandths of a second.
const PATIENCE: Duration = Duration::from_secs(10);

/// Folders that no other writer has, until this is dropped or the program ends.
pub struct Lock(#[allow(dead_code)] Vec<File>);

impl Lock {
    /// Locks some folders, always in the same sequence, so that no two writers wait for one another.
    pub fn of<'p>(folders: impl Iterator<Item = &'p Path>) -> io::Result<Lock> {
        let start = Instant::now();
        let mut locked = Vec::new();
        for folder in folders.collect::<BTreeSet<_>>() {
            // Where a folder cannot be locked, on some network drives, one has to do without.
            let Ok(file) = File::open(folder) else {
                continue;
            };
            while let Err(TryLockError::WouldBlock) = file.try_lock() {
                if start.elapsed() > PATIENCE {
                    return Err(io::Error::other("another writer is at work in this folder; try again"));
                }
                sleep(Duration::from_millis(2));
            }
            locked.push(file);
        }
        Ok(Lock(locked))
    }
}
