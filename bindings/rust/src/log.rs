//! Logs of any size, for whoever keeps one.

use crate::log_file::LogFile;
use crate::{path_digests, sys, verdict, written, Digest, Flat, Refused};
use std::error::Error;
use std::fmt;
use std::io;
use std::path::Path;
use std::time::Duration;

/// A transparency log of any size (RFC 6962 and RFC 9162, section 2.1), for whoever keeps it and for its clients.
///
/// `Log::new()` keeps the stored digests in memory, `Log::open` in a file. They are those of the complete subtrees, fewer than
/// two an entry; the entries themselves are not kept. The log publishes its root and its size. Its proofs are their digests alone,
/// 32 bytes each, in the order of the standard; `Log::verify_inclusion` and `Log::verify_consistency` check them for a client.
///
/// ```
/// use paxidore::Log;
///
/// let mut log = Log::new();
/// log.append(&["ann", "bob", "cat"])?;
/// let path = log.inclusion(3, 1)?;
/// assert!(Log::verify_inclusion(&log.root(3)?, 3, 1, b"bob", &path)?);
/// # Ok::<(), paxidore::LogError>(())
/// ```
#[derive(Debug)]
pub struct Log {
    size: usize,
    kept: Kept,
}

// Where the stored digests are.
#[derive(Debug)]
enum Kept {
    Memory(Vec<Digest>),
    File(LogFile),
}

/// Why a call on a log was not done.
#[derive(Debug)]
#[non_exhaustive]
pub enum LogError {
    /// The library refused the call.
    Refused(Refused),
    /// The file was not read, written or synced. Where entries were not appended, whether it has them is known when it is opened
    /// again.
    Io(io::Error),
}

impl fmt::Display for LogError {
    fn fmt(&self, f: &mut fmt::Formatter<'_>) -> fmt::Result {
        match self {
            LogError::Refused(refused) => refused.fmt(f),
            LogError::Io(error) => {
                write!(f, "the file of the log was not read or written: {error}")
            }
        }
    }
}

impl Error for LogError {
    fn source(&self) -> Option<&(dyn Error + 'static)> {
        match self {
            LogError::Refused(refused) => Some(refused),
            LogError::Io(error) => Some(error),
        }
    }
}

impl From<Refused> for LogError {
    fn from(refused: Refused) -> LogError {
        LogError::Refused(refused)
    }
}

impl From<io::Error> for LogError {
    fn from(error: io::Error) -> LogError {
        LogError::Io(error)
    }
}

fn stored_count(size: usize) -> usize {
    // SAFETY: the call asks for nothing.
    unsafe { sys::paxidore_log_kept(size) }
}

// How many entries `Log::extend` appends at once.
const BATCH: usize = 1024;

// No proof has more bytes.
const PROOF_BYTES: usize = 64 * 32;

impl Default for Log {
    fn default() -> Log {
        Log {
            size: 0,
            kept: Kept::Memory(Vec::new()),
        }
    }
}

impl Log {
    /// The log of no entries, in memory.
    pub fn new() -> Log {
        Log::default()
    }

    /// The log that a file keeps; a new one where there is no such file. It is locked until the log is dropped.
    ///
    /// The log has the entries of the last append that returned, or also those of the one that was under way. Opening writes a sector
    /// again that was lost, or else the head as it is. A forked process does not append to the file that its parent opened. Errors:
    /// `InvalidData` where the file is no log's or ends early, `WouldBlock` where it is open already, those of files.
    pub fn open<P: AsRef<Path>>(path: P) -> io::Result<Log> {
        Log::open_within(path, Duration::ZERO)
    }

    /// As [`open`](Log::open); where the file is open already, it waits for at most so long.
    pub fn open_within<P: AsRef<Path>>(path: P, wait: Duration) -> io::Result<Log> {
        Log::of(LogFile::open(path.as_ref(), wait)?)
    }

    /// The log that a file keeps, to be read only: it needs no lock, so that its keeper may have it open.
    ///
    /// It sees what the keeper appends, but for its `len`, which is that of the last [`refresh`](Log::refresh). Errors: `NotFound`,
    /// `InvalidData` where the file is no log's or ends early, those of files.
    pub fn open_read_only<P: AsRef<Path>>(path: P) -> io::Result<Log> {
        Log::of(LogFile::open_read_only(path.as_ref())?)
    }

    fn of(file: LogFile) -> io::Result<Log> {
        match file.size() {
            Ok(size) => Ok(Log {
                size,
                kept: Kept::File(file),
            }),
            Err(LogError::Io(error)) => Err(error),
            Err(LogError::Refused(refused)) => {
                Err(io::Error::new(io::ErrorKind::InvalidData, refused))
            }
        }
    }

    /// The count of entries.
    pub fn len(&self) -> usize {
        self.size
    }

    /// Whether there is no entry.
    pub fn is_empty(&self) -> bool {
        self.size == 0
    }

    /// Looks how many entries there are now, where the log is open for reading only and its keeper may have appended.
    pub fn refresh(&mut self) -> Result<usize, LogError> {
        if let Kept::File(file) = &self.kept {
            self.size = file.size()?;
        }
        Ok(self.size)
    }

    /// Appends entries, whole or not at all, and returns the new size. In a file they are synced then.
    ///
    /// Refusals: `Size` for a size of 2^63 and above, `Memory`. `LogError::Io` where the file was moved, removed or replaced while it
    /// was open: what was appended is not in the log of that name.
    pub fn append<L: AsRef<[u8]>>(&mut self, entries: &[L]) -> Result<usize, LogError> {
        let flat = Flat::of(entries);
        self.size = match &mut self.kept {
            Kept::Memory(stored) => grown(stored, self.size, &flat)?,
            Kept::File(file) => file.append(self.size, &flat)?,
        };
        Ok(self.size)
    }

    /// Appends entries as they come, 1,024 at a time, and returns the new size. `progress` is called with the size after each append.
    ///
    /// An error leaves the entries of the appends before. Refusals: as [`append`](Log::append).
    pub fn extend<L: AsRef<[u8]>>(
        &mut self,
        entries: impl IntoIterator<Item = L>,
        mut progress: impl FnMut(usize),
    ) -> Result<usize, LogError> {
        let mut entries = entries.into_iter();
        loop {
            let batch: Vec<L> = entries.by_ref().take(BATCH).collect();
            if batch.is_empty() {
                return Ok(self.size);
            }
            progress(self.append(&batch)?);
        }
    }

    /// Appends the entries of a part, a log whose own entries were hashed apart, as in a thread, and returns the new size: its digests
    /// are copied, and only those above them are hashed. Both logs are in memory.
    ///
    /// A power of two that is at least the part's size has to divide this log's: cut entries into parts of 2^k and a shorter last one,
    /// and join them in order. Refusals: `Size`. `LogError::Io` for a log in a file.
    pub fn join(&mut self, part: &Log) -> Result<usize, LogError> {
        let (Kept::Memory(stored), Kept::Memory(others)) = (&mut self.kept, &part.kept) else {
            let why = "logs in files are not joined";
            return Err(io::Error::new(io::ErrorKind::Unsupported, why).into());
        };
        self.size = joined(stored, self.size, others, part.size)?;
        Ok(self.size)
    }

    /// The root of the first `size` entries; of none the SHA-256 of nothing. Refusals: `Size` for more than there are.
    pub fn root(&self, size: usize) -> Result<Digest, LogError> {
        let stored = match &self.kept {
            Kept::Memory(stored) => stored,
            Kept::File(file) => return file.root(size),
        };
        let mut root = [0; 32];
        // SAFETY: as in `Trees::root`.
        let answer = unsafe {
            sys::paxidore_log_root(
                root.as_mut_ptr(),
                stored.as_ptr().cast(),
                stored.len(),
                size,
            )
        };
        match answer {
            0 => Ok(root),
            refused => Err(Refused::of(refused).into()),
        }
    }

    /// The bytes of the path of an index in the first `size` entries. Refusals: `Size`, `Index`, `Memory`.
    pub fn inclusion(&self, size: usize, index: usize) -> Result<Vec<u8>, LogError> {
        let stored = match &self.kept {
            Kept::Memory(stored) => stored,
            Kept::File(file) => return file.inclusion(PROOF_BYTES, size, index),
        };
        // SAFETY: as in `Trees::path`.
        let path = written(PROOF_BYTES, |path, room, count| unsafe {
            sys::paxidore_log_inclusion(
                path,
                room,
                count,
                stored.as_ptr().cast(),
                stored.len(),
                size,
                index,
            )
        })?;
        Ok(path)
    }

    /// The bytes of the one proof of some rising indexes in the first `size` entries of a log in memory.
    ///
    /// Refusals: `Size`; `Index`, also of no index and of one that does not rise; `Memory`. `LogError::Io` for a log in a file.
    pub fn multi_inclusion(&self, size: usize, indexes: &[usize]) -> Result<Vec<u8>, LogError> {
        let Kept::Memory(stored) = &self.kept else {
            let why = "a log in a file has no proof of several entries";
            return Err(io::Error::new(io::ErrorKind::Unsupported, why).into());
        };
        let most = size.min(self.size);
        let room = indexes.len().min(most) * path_digests(most);
        // SAFETY: as in `Trees::path`.
        let proof = written(room, |proof, room, count| unsafe {
            sys::paxidore_log_multi_inclusion(
                proof,
                room,
                count,
                stored.as_ptr().cast(),
                stored.len(),
                size,
                indexes.as_ptr(),
                indexes.len(),
            )
        })?;
        Ok(proof)
    }

    /// The bytes of the proof that the first `size` entries continue the first `old_size` ones.
    ///
    /// Refusals: `Size`, also for the old size 0 and for one above the size; `Memory`.
    pub fn consistency(&self, old_size: usize, size: usize) -> Result<Vec<u8>, LogError> {
        let stored = match &self.kept {
            Kept::Memory(stored) => stored,
            Kept::File(file) => return file.consistency(PROOF_BYTES, old_size, size),
        };
        // SAFETY: as in `Trees::path`.
        let proof = written(PROOF_BYTES, |proof, room, count| unsafe {
            sys::paxidore_log_consistency(
                proof,
                room,
                count,
                stored.as_ptr().cast(),
                stored.len(),
                old_size,
                size,
            )
        })?;
        Ok(proof)
    }

    /// Whether each stored digest of two others is their hash. All of them are read and hashed.
    pub fn check(&self) -> Result<bool, LogError> {
        let stored = match &self.kept {
            Kept::Memory(stored) => stored,
            Kept::File(file) => return file.check(),
        };
        // SAFETY: as in `Trees::verify`.
        let answer =
            unsafe { sys::paxidore_log_check(stored.as_ptr().cast(), stored.len(), self.size) };
        Ok(verdict(answer)?)
    }
}

// Puts the digests of more entries behind the stored ones, and returns the new size.
fn grown(stored: &mut Vec<Digest>, own: usize, flat: &Flat) -> Result<usize, Refused> {
    let size = own.saturating_add(flat.lengths.len());
    let room = stored_count(size).saturating_sub(stored.len());
    let (mut more, mut count) = (vec![[0; 32]; room], 0);
    // SAFETY: as in `Trees::verify`, and `more` has room for `room` digests that nothing else lends.
    let answer = unsafe {
        sys::paxidore_log_append(
            more.as_mut_ptr().cast(),
            room,
            &mut count,
            stored.as_ptr().cast(),
            stored.len(),
            own,
            flat.bytes.as_ptr(),
            flat.bytes.len(),
            flat.lengths.as_ptr(),
            flat.lengths.len(),
        )
    };
    if answer != 0 {
        return Err(Refused::of(answer));
    }
    more.truncate(count);
    stored.append(&mut more);
    Ok(size)
}

// Puts the digests of a part behind the stored ones, and returns the new size.
fn joined(
    stored: &mut Vec<Digest>,
    own: usize,
    part: &[Digest],
    count: usize,
) -> Result<usize, Refused> {
    let size = own.saturating_add(count);
    let room = stored_count(size).saturating_sub(stored.len());
    let (mut more, mut made) = (vec![[0; 32]; room], 0);
    // SAFETY: as in `grown`.
    let answer = unsafe {
        sys::paxidore_log_join(
            more.as_mut_ptr().cast(),
            room,
            &mut made,
            stored.as_ptr().cast(),
            stored.len(),
            own,
            part.as_ptr().cast(),
            part.len(),
            count,
        )
    };
    if answer != 0 {
        return Err(Refused::of(answer));
    }
    more.truncate(made);
    stored.append(&mut more);
    Ok(size)
}
