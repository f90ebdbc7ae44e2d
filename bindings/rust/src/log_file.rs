//! A log in a file. The library says what is to be read of it and what is to be written, and this module does that.

use crate::sys::{LogPieces, LogSteps, Piece};
use crate::{sys, verdict, Digest, Flat, LogError, Refused};
use std::fs::{self, File, OpenOptions};
use std::io;
use std::os::unix::fs::{FileExt, MetadataExt};
use std::os::unix::io::AsRawFd;
use std::path::{Path, PathBuf};
use std::thread::sleep;
use std::time::{Duration, Instant};

/// The file of a log.
#[derive(Debug)]
pub(crate) struct LogFile {
    file: File,
    path: PathBuf,
    // it has no lock, and is not written
    reads_only: bool,
    // that opened the file: a forked one has its lock as well
    process: u32,
    // an append failed, and whether the file has its entries is not known
    is_unknown: bool,
    // a write or a sync was refused since the head was written last
    is_refused: bool,
}

// How many pieces and steps are enough, as the header has them.
const PIECES: usize = 384;
const STEPS: usize = 8;

// The two sectors of a file's slots, and how each begins.
const SECTOR: usize = 4096;
const SECTOR_TITLE: &[u8; 32] = b"paxidore log of SHA-256, sectors";

// What a system answers that cannot read what a disk has: EIO.
const UNREADABLE: i32 = 5;

// What is to be written: the places and counts of steps, and their bytes.
struct Plan {
    steps: Vec<Piece>,
    bytes: Vec<u8>,
}

// Locks a file, and waits for its lock at most until then.
fn lock(file: &File, until: Instant) -> io::Result<()> {
    loop {
        // SAFETY: the descriptor is that of an open file.
        if unsafe { sys::flock(file.as_raw_fd(), sys::LOCK_EX | sys::LOCK_NB) } == 0 {
            return Ok(());
        }
        let error = io::Error::last_os_error();
        let left = until.saturating_duration_since(Instant::now());
        match error.kind() {
            io::ErrorKind::Interrupted => {}
            io::ErrorKind::WouldBlock if !left.is_zero() => {
                sleep(left.min(Duration::from_millis(5)))
            }
            _ => return Err(error),
        }
    }
}

// Opens the file at a path, which is made where there is none, and locks it.
fn locked(path: &Path, wait: Duration) -> io::Result<File> {
    let until = Instant::now() + wait;
    loop {
        let file = OpenOptions::new()
            .read(true)
            .write(true)
            .create(true)
            .truncate(false)
            .open(path)?;
        lock(&file, until)?;
        // else another file took its place before it was locked
        if is_named(path, &file)? {
            return Ok(file);
        }
    }
}

// Whether a path names an open file: one that was moved or removed meanwhile has another file, or none, under its name.
fn is_named(path: &Path, file: &File) -> io::Result<bool> {
    let own = file.metadata()?;
    match fs::metadata(path) {
        Ok(found) => Ok((found.dev(), found.ino()) == (own.dev(), own.ino())),
        Err(error) if error.kind() == io::ErrorKind::NotFound => Ok(false),
        Err(error) => Err(error),
    }
}

fn sync_folder(path: &Path) -> io::Result<()> {
    let folder = match path.parent() {
        Some(folder) if !folder.as_os_str().is_empty() => folder,
        _ => Path::new("."),
    };
    File::open(folder)?.sync_all()
}

// Reads bytes from a place on. Of one of the two sectors that cannot be read it gives zeros, where the other one is there.
fn read_sectors(
    into: &mut [u8],
    at: usize,
    read: impl Fn(&mut [u8], usize) -> io::Result<()>,
) -> io::Result<()> {
    match read(into, at) {
        Err(error) if is_unreadable(&error) && at < 2 * SECTOR => {}
        done => return done,
    }
    let (mut rest, mut place) = (into, at);
    while !rest.is_empty() && place < 2 * SECTOR {
        let sector = place / SECTOR * SECTOR;
        let (part, behind) = rest.split_at_mut((sector + SECTOR - place).min(rest.len()));
        match read(part, place) {
            Err(error) if is_unreadable(&error) => {
                let mut title = [0; 32];
                read(&mut title, SECTOR - sector)?;
                if title != *SECTOR_TITLE {
                    return Err(error);
                }
                part.fill(0);
            }
            done => done?,
        }
        (rest, place) = (behind, sector + SECTOR);
    }
    if rest.is_empty() {
        return Ok(());
    }
    read(rest, place)
}

fn is_unreadable(error: &io::Error) -> bool {
    error.raw_os_error() == Some(UNREADABLE)
}

impl LogFile {
    pub(crate) fn open(path: &Path, wait: Duration) -> io::Result<LogFile> {
        let path = std::env::current_dir()?.join(path);
        let file = LogFile {
            file: locked(&path, wait)?,
            path,
            reads_only: false,
            process: std::process::id(),
            is_unknown: false,
            is_refused: false,
        };
        match file.begun() {
            Ok(()) => Ok(file),
            Err(LogError::Io(error)) => Err(error),
            Err(LogError::Refused(refused)) => {
                Err(io::Error::new(io::ErrorKind::InvalidData, refused))
            }
        }
    }

    // Writes the two sectors of a new log, one that was lost, or the head again.
    fn begun(&self) -> Result<(), LogError> {
        self.carry_out(&self.made()?)?;
        // whoever made a log that has no entry may have ended before its name was on the disk
        if self.size()? == 0 {
            sync_folder(&self.path)?;
        }
        Ok(())
    }

    pub(crate) fn open_read_only(path: &Path) -> io::Result<LogFile> {
        Ok(LogFile {
            file: File::open(path)?,
            path: path.to_path_buf(),
            reads_only: true,
            process: std::process::id(),
            is_unknown: false,
            is_refused: false,
        })
    }

    // Makes a call, for which the pieces of the file are read that it asks for. What it is handed may be written for as long as it says,
    // and nothing else lends it.
    fn asking(&self, mut call: impl FnMut(&mut LogPieces) -> i32) -> Result<(), LogError> {
        if self.is_unknown {
            return Err(io::Error::other(
                "an append to the file of this log failed: open it again",
            )
            .into());
        }
        let mut length = self.file.metadata()?.len() as usize;
        loop {
            let answer = self.asked(&mut call, length);
            let before = length;
            match answer {
                // a keeper may have appended since: a head that was read later says more digests than the file had
                Err(LogError::Refused(Refused::Short)) => {
                    length = self.file.metadata()?.len() as usize;
                    if length <= before {
                        return answer;
                    }
                }
                _ => return answer,
            }
        }
    }

    // The same, of a file of this length.
    fn asked(
        &self,
        call: &mut impl FnMut(&mut LogPieces) -> i32,
        file_len: usize,
    ) -> Result<(), LogError> {
        let mut places = [Piece { at: 0, len: 0 }; PIECES];
        let (mut read, mut bytes) = (0, Vec::new());
        loop {
            let mut pieces = LogPieces {
                places: places.as_mut_ptr(),
                places_room: PIECES,
                places_len: read,
                bytes: bytes.as_ptr(),
                bytes_len: bytes.len(),
                file_len,
            };
            match call(&mut pieces) {
                0 => return Ok(()),
                sys::MORE => {}
                refused => return Err(Refused::of(refused).into()),
            }
            let asked = pieces.places_len;
            for piece in &places[read..asked] {
                let begin = bytes.len();
                bytes.resize(begin + piece.len, 0);
                self.read_piece(&mut bytes[begin..], piece.at)?;
            }
            read = asked;
        }
    }

    // Reads a piece, of which a sector that cannot be read is lost. One that ends behind the file is `Short`.
    fn read_piece(&self, into: &mut [u8], at: usize) -> Result<(), LogError> {
        match read_sectors(into, at, |part, place| {
            self.file.read_exact_at(part, place as u64)
        }) {
            Ok(()) => Ok(()),
            Err(error) if error.kind() == io::ErrorKind::UnexpectedEof => {
                Err(Refused::Short.into())
            }
            Err(error) => Err(error.into()),
        }
    }

    // What a call says that is to be written, in so many bytes at most.
    fn planned(
        &self,
        room: usize,
        mut call: impl FnMut(&mut LogSteps, &mut LogPieces) -> i32,
    ) -> Result<Plan, LogError> {
        let mut plan = Plan {
            steps: vec![Piece { at: 0, len: 0 }; STEPS],
            bytes: vec![0; room],
        };
        let mut steps = LogSteps {
            places: plan.steps.as_mut_ptr(),
            places_room: STEPS,
            places_len: 0,
            bytes: plan.bytes.as_mut_ptr(),
            bytes_room: room,
            bytes_len: 0,
        };
        self.asking(|pieces| call(&mut steps, pieces))?;
        plan.bytes.truncate(steps.bytes_len);
        plan.steps.truncate(steps.places_len);
        Ok(plan)
    }

    fn made(&self) -> Result<Plan, LogError> {
        // SAFETY: each pointer is that of a buffer of the length behind it, which nothing else lends.
        self.planned(room(0), |steps, pieces| unsafe {
            sys::paxidore_log_file_make(steps, pieces)
        })
    }

    // Each step is written and synced before the next one.
    fn carry_out(&self, plan: &Plan) -> io::Result<()> {
        let mut rest = &plan.bytes[..];
        for step in &plan.steps {
            let (part, behind) = rest.split_at(step.len);
            self.file.write_all_at(part, step.at as u64)?;
            self.file.sync_all()?;
            rest = behind;
        }
        Ok(())
    }

    pub(crate) fn size(&self) -> Result<usize, LogError> {
        let mut size = 0;
        // SAFETY: as in `made`.
        self.asking(|pieces| unsafe { sys::paxidore_log_file_size(&mut size, pieces) })?;
        Ok(size)
    }

    // Refuses a file that no longer has its name: what is appended to it is not in the log of that name.
    fn keep_name(&self) -> io::Result<()> {
        if is_named(&self.path, &self.file)? {
            return Ok(());
        }
        Err(io::Error::other(
            "another file has the name of this log now, or none: open it again",
        ))
    }

    pub(crate) fn append(&mut self, own: usize, flat: &Flat) -> Result<usize, LogError> {
        if self.reads_only {
            return Err(io::Error::other("the log is open for reading only").into());
        }
        if self.process != std::process::id() {
            return Err(io::Error::other(
                "the log was opened before the process was forked: open it again",
            )
            .into());
        }
        self.keep_name()?;
        if self.is_refused {
            // what is read may be gone after a power failure
            self.begun()?;
            self.is_refused = false;
        }
        let mut size = own;
        // SAFETY: as in `made`.
        let plan = self.planned(room(flat.lengths.len()), |steps, pieces| unsafe {
            sys::paxidore_log_file_append(
                steps,
                &mut size,
                pieces,
                flat.bytes.as_ptr(),
                flat.bytes.len(),
                flat.lengths.as_ptr(),
                flat.lengths.len(),
            )
        })?;
        if let Err(error) = self.carry_out(&plan) {
            self.is_refused = true;
            // what was written is no part of the log, where the file has the size that it had
            self.is_unknown = !matches!(self.size(), Ok(found) if found == own);
            return Err(error.into());
        }
        self.keep_name()?;
        Ok(size)
    }

    pub(crate) fn root(&self, size: usize) -> Result<Digest, LogError> {
        let mut root = [0; 32];
        // SAFETY: as in `made`.
        self.asking(|pieces| unsafe {
            sys::paxidore_log_file_root(root.as_mut_ptr(), pieces, size)
        })?;
        Ok(root)
    }

    pub(crate) fn inclusion(
        &self,
        room: usize,
        size: usize,
        index: usize,
    ) -> Result<Vec<u8>, LogError> {
        let (mut path, mut count) = (vec![0; room], 0);
        // SAFETY: as in `made`.
        self.asking(|pieces| unsafe {
            sys::paxidore_log_file_inclusion(
                path.as_mut_ptr(),
                room,
                &mut count,
                pieces,
                size,
                index,
            )
        })?;
        path.truncate(count);
        Ok(path)
    }

    pub(crate) fn consistency(
        &self,
        room: usize,
        old_size: usize,
        size: usize,
    ) -> Result<Vec<u8>, LogError> {
        let (mut proof, mut count) = (vec![0; room], 0);
        // SAFETY: as in `made`.
        self.asking(|pieces| unsafe {
            sys::paxidore_log_file_consistency(
                proof.as_mut_ptr(),
                room,
                &mut count,
                pieces,
                old_size,
                size,
            )
        })?;
        proof.truncate(count);
        Ok(proof)
    }

    pub(crate) fn check(&self) -> Result<bool, LogError> {
        let mut whole = vec![0; self.file.metadata()?.len() as usize];
        self.read_piece(&mut whole, 0)?;
        // SAFETY: as in `made`.
        let answer = unsafe { sys::paxidore_log_file_check(whole.as_ptr(), whole.len()) };
        Ok(verdict(answer)?)
    }
}

impl Drop for LogFile {
    // The lock would last while a process that was forked meanwhile has the file too.
    fn drop(&mut self) {
        if !self.reads_only && self.process == std::process::id() {
            // SAFETY: the descriptor is that of an open file.
            unsafe { sys::flock(self.file.as_raw_fd(), sys::LOCK_UN) };
        }
    }
}

fn room(count: usize) -> usize {
    // SAFETY: the call asks for nothing.
    unsafe { sys::paxidore_log_file_room(count) }
}

#[cfg(test)]
mod tests {
    use super::*;

    // Reads of bytes of which some cannot be read.
    fn read_of(
        file: &[u8],
        bad: std::ops::Range<usize>,
        at: usize,
        count: usize,
    ) -> io::Result<Vec<u8>> {
        let mut into = vec![1; count];
        read_sectors(&mut into, at, |part, place| {
            let end = place + part.len();
            if place < bad.end && end > bad.start {
                return Err(io::Error::from_raw_os_error(UNREADABLE));
            }
            part.copy_from_slice(&file[place..end]);
            Ok(())
        })?;
        Ok(into)
    }

    #[test]
    fn a_sector_that_cannot_be_read() -> io::Result<()> {
        let mut file = vec![7; 3 * SECTOR];
        for at in [0, SECTOR] {
            file[at..at + 32].copy_from_slice(SECTOR_TITLE);
        }
        for at in [0, SECTOR] {
            let bad = at..at + SECTOR;
            let mut lost = file.clone();
            lost[bad.clone()].fill(0);
            for (place, count) in [
                (0, 96),
                (SECTOR, 64),
                (0, 8192),
                (0, 12288),
                (100, 9000),
                (8192, 32),
                (8100, 200),
            ] {
                assert_eq!(
                    read_of(&file, bad.clone(), place, count)?,
                    lost[place..place + count]
                );
            }
            // the other one is not there
            let mut none = file.clone();
            none[SECTOR - at] ^= 1;
            assert!(read_of(&none, bad, at, 64).is_err());
        }
        assert!(read_of(&file, 0..2 * SECTOR, 0, 64).is_err());
        assert!(read_of(&file, 8192..8193, 8192, 32).is_err());
        assert!(read_of(&file, 8192..8193, 0, 12288).is_err());
        Ok(())
    }
}
