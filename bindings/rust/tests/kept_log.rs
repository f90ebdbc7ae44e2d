//! Logs in memory and in files, against the definitions of RFC 6962 (section 2.1).

use paxidore::{sha256, Digest, Log, LogError, Refused};
use std::fs;
use std::io::{ErrorKind, Write};
use std::path::PathBuf;
use std::process::{Command, Stdio};
use std::time::{Duration, Instant};

fn entries(count: usize) -> Vec<Vec<u8>> {
    (0..count).map(|i| vec![i as u8; i % 130]).collect()
}

fn digests(entries: &[Vec<u8>]) -> Vec<Digest> {
    entries
        .iter()
        .map(|entry| sha256(&[&[0], &entry[..]].concat()))
        .collect()
}

fn split(count: usize) -> usize {
    count.next_power_of_two() / 2
}

fn mth(leaves: &[Digest]) -> Digest {
    match leaves {
        [] => sha256(b""),
        [leaf] => *leaf,
        _ => {
            let (left, right) = leaves.split_at(split(leaves.len()));
            sha256(&[&[1], &mth(left)[..], &mth(right)[..]].concat())
        }
    }
}

fn path(index: usize, leaves: &[Digest]) -> Vec<Digest> {
    if leaves.len() == 1 {
        return Vec::new();
    }
    let (left, right) = leaves.split_at(split(leaves.len()));
    let (mut path, beside) = if index < left.len() {
        (path(index, left), mth(right))
    } else {
        (path(index - left.len(), right), mth(left))
    };
    path.push(beside);
    path
}

fn subproof(old: usize, leaves: &[Digest], known: bool) -> Vec<Digest> {
    if old == leaves.len() {
        return if known { Vec::new() } else { vec![mth(leaves)] };
    }
    let (left, right) = leaves.split_at(split(leaves.len()));
    let (mut proof, beside) = if old <= left.len() {
        (subproof(old, left, known), mth(right))
    } else {
        (subproof(old - left.len(), right, false), mth(left))
    };
    proof.push(beside);
    proof
}

// How often something is tried: as the environment says, for the long way.
fn counted(name: &str, else_count: u64) -> u64 {
    std::env::var(name).map_or(else_count, |count| count.parse().unwrap())
}

// Why a call was refused.
fn refusal<T: std::fmt::Debug>(done: Result<T, LogError>) -> Refused {
    match done {
        Err(LogError::Refused(refused)) => refused,
        other => panic!("not refused: {other:?}"),
    }
}

struct Room(PathBuf);

impl Room {
    fn new(name: &str) -> Room {
        let path = std::env::temp_dir().join(format!("paxidore-{}-{name}", std::process::id()));
        fs::create_dir(&path).unwrap();
        Room(path)
    }

    fn log(&self) -> PathBuf {
        self.0.join("log")
    }
}

impl Drop for Room {
    fn drop(&mut self) {
        let _ = fs::remove_dir_all(&self.0);
    }
}

#[test]
fn entries_as_they_come() -> Result<(), LogError> {
    let entries = entries(2500);
    let digests = digests(&entries);
    let (mut log, mut told) = (Log::new(), Vec::new());
    assert_eq!(log.extend(&entries[..7], |_| ())?, 7);
    assert_eq!(log.extend(&entries[7..], |size| told.push(size))?, 2500);
    assert_eq!(told, [1031, 2055, 2500]);
    assert_eq!(log.extend(&entries[..0], |_| ())?, 2500);
    assert_eq!(log.root(2500)?, mth(&digests));
    Ok(())
}

#[test]
fn each_size() -> Result<(), LogError> {
    let (entries, mut log) = (entries(40), Log::new());
    let digests = digests(&entries);
    for (size, entry) in entries.iter().enumerate() {
        assert_eq!(log.root(size)?, mth(&digests[..size]));
        assert_eq!(log.append(&[entry])?, size + 1);
    }
    for size in 1..=40 {
        let (leaves, root) = (&digests[..size], log.root(size)?);
        assert_eq!(root, mth(leaves));
        for index in 0..size {
            let shown = log.inclusion(size, index)?;
            assert_eq!(shown, path(index, leaves).concat());
            assert!(Log::verify_inclusion(
                &root,
                size,
                index,
                &entries[index],
                &shown
            )?);
            assert!(Log::verify_inclusion_digest(
                &root,
                size,
                index,
                &digests[index],
                &shown
            )?);
            let shown = log.consistency(index + 1, size)?;
            assert_eq!(shown, subproof(index + 1, leaves, true).concat());
            let old = mth(&digests[..index + 1]);
            assert!(Log::verify_consistency(
                &old,
                index + 1,
                &root,
                size,
                &shown
            )?);
        }
    }
    assert!(log.check()?);
    Ok(())
}

#[test]
fn joins() -> Result<(), LogError> {
    let entries = entries(70);
    let log_of = |entries: &[Vec<u8>]| -> Result<Log, LogError> {
        let mut log = Log::new();
        log.append(entries)?;
        Ok(log)
    };
    for size in 0..65 {
        for count in 0..=70 - size {
            let (mut log, whole) = (log_of(&entries[..size])?, log_of(&entries[..size + count])?);
            let joined = log.join(&log_of(&entries[size..size + count])?);
            if size % count.next_power_of_two() != 0 {
                assert!(matches!(joined, Err(LogError::Refused(Refused::Size))));
                assert_eq!((log.len(), log.root(size)?), (size, whole.root(size)?));
                continue;
            }
            assert_eq!((joined?, log.len()), (size + count, size + count));
            assert!(log.check()?);
            for at in 0..=size + count {
                assert_eq!(log.root(at)?, whole.root(at)?);
            }
        }
    }
    let room = Room::new("joins");
    let mut file = Log::open(room.log())?;
    assert!(matches!(file.join(&Log::new()), Err(LogError::Io(_))));
    assert!(matches!(Log::new().join(&file), Err(LogError::Io(_))));
    Ok(())
}

#[test]
fn refusals() -> Result<(), LogError> {
    let mut log = Log::new();
    assert!(log.is_empty());
    assert_eq!(refusal(log.inclusion(0, 0)), Refused::Index);
    assert_eq!(refusal(log.consistency(0, 0)), Refused::Size);
    assert_eq!(log.append::<&[u8]>(&[])?, 0);
    log.append(&["a", "b", "c"])?;
    assert_eq!(log.len(), 3);
    assert_eq!(refusal(log.root(4)), Refused::Size);
    assert_eq!(refusal(log.root(usize::MAX)), Refused::Size);
    assert_eq!(refusal(log.inclusion(3, 3)), Refused::Index);
    assert_eq!(refusal(log.inclusion(4, 0)), Refused::Size);
    assert_eq!(refusal(log.consistency(0, 3)), Refused::Size);
    assert_eq!(refusal(log.consistency(3, 2)), Refused::Size);
    assert!(log.consistency(3, 3)?.is_empty());
    let none = [0; 32];
    assert_eq!(
        Log::verify_inclusion_digest(&none, 1, 1, &none, &[]),
        Err(Refused::Index)
    );
    assert_eq!(
        Log::verify_inclusion_digest(&none, 2, 0, &none, &[]),
        Err(Refused::Truncated)
    );
    assert_eq!(
        Log::verify_inclusion_digest(&none, 1, 0, &none, &[0]),
        Err(Refused::Invalid)
    );
    assert_eq!(
        Log::verify_inclusion_digest(&none, 1, 0, &[1; 32], &[]),
        Ok(false)
    );
    Ok(())
}

#[test]
fn a_file_is_read_again() -> Result<(), LogError> {
    let room = Room::new("again");
    let entries = entries(25);
    let digests = digests(&entries);
    for size in 0..25 {
        let mut log = Log::open(room.log())?;
        assert_eq!(log.len(), size);
        assert_eq!(log.root(size)?, mth(&digests[..size]));
        assert!(log.check()?);
        log.append(&entries[size..size + 1])?;
    }
    let log = Log::open(room.log())?;
    assert_eq!(log.inclusion(25, 7)?, path(7, &digests).concat());
    assert_eq!(
        Log::open(room.log()).unwrap_err().kind(),
        ErrorKind::WouldBlock
    );
    assert_eq!(fs::read_dir(&room.0)?.count(), 1);
    Ok(())
}

#[test]
fn files() -> Result<(), LogError> {
    let room = Room::new("files");
    for content in [&b"x"[..], &[b'x'; 97], &[0; 2 * SECTOR + 1]] {
        fs::write(room.log(), content)?;
        assert_eq!(
            Log::open(room.log()).unwrap_err().kind(),
            ErrorKind::InvalidData
        );
        assert_eq!(fs::read(room.log())?, content);
    }
    fs::remove_file(room.log())?;
    Log::open(room.log())?.append(&["a", "b", "c"])?;
    let whole = fs::read(room.log())?;
    // the digests of a, of b, of both, and of c
    let [a, b, c] = ["a", "b", "c"].map(|entry| sha256(&[&[0], entry.as_bytes()].concat()));
    let both = sha256(&[&[1][..], &a, &b].concat());
    assert!(whole.ends_with(&[a, b, both, c].concat()));
    // what an append left that did not end is no part of the log, and a short file is refused
    let tail = [&whole[..], b"torn"].concat();
    fs::write(room.log(), &tail)?;
    assert_eq!(Log::open(room.log())?.len(), 3);
    assert_eq!(fs::read(room.log())?, tail);
    assert_eq!(Log::open(room.log())?.append(&["d"])?, 4);
    assert_eq!(
        Log::open(room.log())?.root(4)?,
        mth(&[a, b, c, sha256(b"\0d")])
    );
    fs::write(room.log(), &whole[..whole.len() - 1])?;
    assert_eq!(
        Log::open(room.log()).unwrap_err().kind(),
        ErrorKind::InvalidData
    );
    // damage of a digest is found
    let mut damaged = whole.clone();
    damaged[whole.len() - 32 - 40] ^= 1;
    fs::write(room.log(), damaged)?;
    assert!(!Log::open(room.log())?.check()?);
    Ok(())
}

const SECTOR: usize = 4096;

// The older file, whose slots lie in one sector, of a log's file with two.
fn dense(file: &[u8]) -> Vec<u8> {
    let title = b"paxidore log, digests of SHA-256";
    let (first, second) = (&file[32..64], &file[SECTOR + 32..SECTOR + 64]);
    [title, first, second, &file[2 * SECTOR..]].concat()
}

// The file of a new log of these entries.
fn made(room: &Room, entries: &[Vec<u8>]) -> Result<Vec<u8>, LogError> {
    let path = room.0.join("new");
    let _ = fs::remove_file(&path);
    Log::open(&path)?.append(entries)?;
    let file = fs::read(path)?;
    for at in [0, SECTOR] {
        assert_eq!(&file[at..at + 32], b"paxidore log of SHA-256, sectors");
        assert_eq!(file[at + 64..at + SECTOR], [0; SECTOR - 64]);
    }
    Ok(file)
}

// The log has these entries' digests.
fn is_log_of(log: &Log, leaves: &[Digest]) -> Result<(), LogError> {
    assert_eq!(log.len(), leaves.len());
    assert_eq!(log.root(leaves.len())?, mth(leaves));
    for index in 0..leaves.len() {
        let proof = log.inclusion(leaves.len(), index)?;
        assert_eq!(proof, path(index, leaves).concat());
    }
    assert!(log.check()?);
    Ok(())
}

#[test]
fn slots_in_two_sectors() -> Result<(), LogError> {
    let room = Room::new("sectors");
    let entries = entries(12);
    let leaves = digests(&entries);
    for size in [0, 1, 2, 5, 11] {
        let whole = made(&room, &entries[..size])?;
        for lies in [<[u8]>::to_vec as fn(&[u8]) -> Vec<u8>, dense] {
            fs::write(room.log(), lies(&whole))?;
            let mut log = Log::open(room.log())?;
            assert_eq!(fs::read(room.log())?, lies(&whole));
            is_log_of(&log, &leaves[..size])?;
            assert_eq!(log.append(&entries[size..])?, 12);
            is_log_of(&log, &leaves)?;
            assert_eq!(fs::read(room.log())?, lies(&made(&room, &entries)?));
        }
        // without one of its sectors it is read, and who opens it to append writes that sector again
        for (at, byte) in [(0, 0), (0, 0xa5), (SECTOR, 0), (SECTOR, 0xa5)] {
            let mut lost = whole.clone();
            lost[at..at + SECTOR].fill(byte);
            fs::write(room.log(), &lost)?;
            is_log_of(&Log::open_read_only(room.log())?, &leaves[..size])?;
            assert_eq!(fs::read(room.log())?, lost);
            let mut log = Log::open(room.log())?;
            assert_eq!(fs::read(room.log())?, whole);
            is_log_of(&log, &leaves[..size])?;
            assert_eq!(log.append(&entries[size..])?, 12);
            assert_eq!(fs::read(room.log())?, made(&room, &entries)?);
        }
        // while it is open nothing is written
        let mut lost = whole.clone();
        lost[..SECTOR].fill(0);
        fs::write(room.log(), &whole)?;
        let mut log = Log::open(room.log())?;
        fs::write(room.log(), &lost)?;
        assert_eq!(refusal(log.append(&["more"])), Refused::DamagedHead);
        assert_eq!(fs::read(room.log())?, lost);
    }
    // without both there is none
    let mut lost = made(&room, &entries)?;
    lost[..SECTOR].fill(0);
    lost[SECTOR + 32] ^= 1;
    fs::write(room.log(), &lost)?;
    assert_eq!(
        Log::open(room.log()).unwrap_err().kind(),
        ErrorKind::InvalidData
    );
    assert_eq!(fs::read(room.log())?, lost);
    Ok(())
}

#[test]
fn each_bit_of_the_head() -> Result<(), LogError> {
    let room = Room::new("bits");
    let entries = entries(11);
    for append in entries.chunks(4) {
        Log::open(room.log())?.append(append)?;
    }
    let (new, root) = (fs::read(room.log())?, mth(&digests(&entries)));
    // in a sector it is written again, but for the zeros behind the slot
    for place in (0..70).chain(SECTOR - 1..SECTOR + 70) {
        let mut flipped = new.clone();
        flipped[place] ^= 1 << (place % 8);
        fs::write(room.log(), &flipped)?;
        let log = Log::open(room.log())?;
        assert_eq!((log.len(), log.root(11)?), (11, root));
        let is_read = place % SECTOR < 64;
        assert_eq!(
            fs::read(room.log())?,
            if is_read { new.clone() } else { flipped }
        );
    }
    // in an older file
    let whole = dense(&new);
    // behind the head stand the digests of 11 entries: 2 * 11 less three ones
    for bit in 0..8 * (whole.len() - 32 * 19) {
        let mut flipped = whole.clone();
        flipped[bit / 8] ^= 1 << (bit % 8);
        fs::write(room.log(), &flipped)?;
        // it is told, or harmless
        match Log::open(room.log()) {
            Ok(log) => assert_eq!((log.len(), log.root(11)?), (11, root)),
            Err(error) => assert_eq!(error.kind(), ErrorKind::InvalidData),
        }
        assert_eq!(fs::read(room.log())?, flipped);
    }
    Ok(())
}

#[test]
fn read_only() -> Result<(), LogError> {
    let room = Room::new("reads");
    assert_eq!(
        Log::open_read_only(room.log()).unwrap_err().kind(),
        ErrorKind::NotFound
    );
    let mut keeper = Log::open(room.log())?;
    let mut reader = Log::open_read_only(room.log())?;
    let entries = entries(9);
    keeper.append(&entries)?;
    assert_eq!((reader.len(), reader.refresh()?), (0, 9));
    assert_eq!(reader.root(9)?, keeper.root(9)?);
    assert_eq!(reader.inclusion(9, 7)?, keeper.inclusion(9, 7)?);
    assert_eq!(reader.consistency(7, 9)?, keeper.consistency(7, 9)?);
    assert!(reader.check()?);
    assert!(matches!(reader.append(&["x"]), Err(LogError::Io(_))));
    // a file that is cut while it is open
    let whole = fs::read(room.log())?;
    fs::OpenOptions::new()
        .write(true)
        .open(room.log())?
        .set_len(whole.len() as u64 - 1)?;
    assert_eq!(refusal(reader.root(9)), Refused::Short);
    assert_eq!(refusal(keeper.inclusion(9, 1)), Refused::Short);
    assert_eq!(refusal(keeper.append(&["x"])), Refused::Short);
    Ok(())
}

#[test]
fn waits_for_the_lock() -> Result<(), LogError> {
    let room = Room::new("waits");
    let keeper = Log::open(room.log())?;
    let begin = Instant::now();
    let wait = Duration::from_millis(30);
    assert_eq!(
        Log::open_within(room.log(), wait).unwrap_err().kind(),
        ErrorKind::WouldBlock
    );
    assert!(begin.elapsed() >= wait);
    let path = room.log();
    let opener =
        std::thread::spawn(move || Log::open_within(path, Duration::from_secs(60)).map(drop));
    std::thread::sleep(wait);
    drop(keeper);
    opener.join().unwrap()?;
    Ok(())
}

#[test]
fn heads_that_a_crash_left() -> Result<(), LogError> {
    let room = Room::new("heads");
    Log::open(room.log())?;
    let new = fs::read(room.log())?;
    let ends = (0..70).chain(SECTOR - 1..SECTOR + 70);
    for (head, ends) in [
        (new.clone(), ends.chain([2 * SECTOR]).collect()),
        (dense(&new), (0..=96).collect::<Vec<_>>()),
    ] {
        for end in ends {
            let zeros = vec![0; head.len()];
            for content in [
                head[..end].to_vec(),
                zeros[..end].to_vec(),
                [&head[..end], &zeros[end..]].concat(),
                [&zeros[..end], &head[end..]].concat(),
            ] {
                fs::write(room.log(), &content)?;
                let mut log = Log::open(room.log())?;
                // as long as nothing in it is that of an older head alone
                let is_part = content
                    .iter()
                    .zip(&new)
                    .all(|(byte, own)| [0, *own].contains(byte));
                // one with a whole slot stays
                let old = dense(&new);
                let made = if is_part {
                    &new
                } else if content.len() == 96 && content[..64] == old[..64] {
                    &content
                } else {
                    &old
                };
                assert_eq!(&fs::read(room.log())?, made);
                assert_eq!(log.append(&["an entry"])?, 1);
            }
        }
    }
    Ok(())
}

#[test]
fn sizes_that_are_none() -> Result<(), LogError> {
    let room = Room::new("sizes");
    Log::open(room.log())?.append(&["a", "b", "c"])?;
    let new = fs::read(room.log())?;
    let old = dense(&new);
    for size in [1 << 63, u64::MAX, 1 << 62, 1 << 59, 1 << 58, 4] {
        for (whole, at) in [(&old, 32), (&old, 64), (&new, 32), (&new, SECTOR + 32)] {
            let mut content = whole.clone();
            content[at..at + 8].copy_from_slice(&size.to_le_bytes());
            content[at + 8..at + 32].copy_from_slice(&sha256(&size.to_le_bytes())[..24]);
            fs::write(room.log(), &content)?;
            assert_eq!(
                Log::open(room.log()).unwrap_err().kind(),
                ErrorKind::InvalidData
            );
            assert_eq!(fs::read(room.log())?, content);
        }
    }
    Ok(())
}

#[test]
fn a_new_log_of_several_threads() -> Result<(), LogError> {
    let room = Room::new("threads");
    for _ in 0..counted("PAXIDORE_ROUNDS", 300) {
        let done: usize = std::thread::scope(|scope| {
            let open = || match Log::open(room.log()) {
                Ok(mut log) => log.append(&["one", "two"]).map(|_| 1),
                Err(error) if error.kind() == ErrorKind::WouldBlock => Ok(0),
                Err(error) => Err(error.into()),
            };
            let threads = [scope.spawn(open), scope.spawn(open), scope.spawn(open)];
            threads.map(|it| it.join().unwrap().unwrap()).iter().sum()
        });
        assert!(done > 0);
        assert_eq!(Log::open(room.log())?.len(), 2 * done);
        fs::remove_file(room.log())?;
    }
    assert_eq!(fs::read_dir(&room.0)?.count(), 0);
    Ok(())
}

#[test]
fn a_file_that_is_replaced_while_it_is_open() -> Result<(), LogError> {
    let room = Room::new("replaced");
    let (path, other) = (room.log(), room.0.join("other"));
    for gone in [false, true] {
        let mut log = Log::open(&path)?;
        let before = log.append(&["an entry"])?;
        if gone {
            fs::remove_file(&path)?;
        } else {
            Log::open(&other)?.append(&["another"; 5])?;
            fs::rename(&other, &path)?;
        }
        let refused = log.append(&["lost"]).unwrap_err();
        assert!(refused.to_string().contains("another file has the name"));
        assert_eq!(log.len(), before);
        drop(log);
        let mut log = Log::open(&path)?;
        assert_eq!(log.len(), if gone { 0 } else { 5 });
        log.append(&["an entry"])?;
    }
    Ok(())
}

// What the process that is killed does; in a run of all tests it does nothing.
#[test]
fn appends_until_it_is_killed() -> Result<(), LogError> {
    let Some(path) = std::env::var_os("PAXIDORE_LOG_TO_KILL") else {
        return Ok(());
    };
    let mut log = Log::open(path)?;
    loop {
        let size = log.append(&[log.len().to_string(), "and another".into()])?;
        std::io::stdout().write_all(format!("size {size}\n").as_bytes())?;
    }
}

#[test]
fn killed_while_it_appends() -> Result<(), LogError> {
    let room = Room::new("killed");
    let mut size = 0;
    for turn in 0..counted("PAXIDORE_KILLS", 60) {
        let mut child = Command::new(std::env::current_exe()?)
            .args(["--exact", "appends_until_it_is_killed", "--nocapture"])
            .env("PAXIDORE_LOG_TO_KILL", room.log())
            .stdout(Stdio::piped())
            .spawn()?;
        std::thread::sleep(Duration::from_micros(3000 + 137 * (turn % 60)));
        child.kill()?;
        let said = String::from_utf8_lossy(&child.wait_with_output()?.stdout).into_owned();
        // the last line may be cut
        let told = said
            .lines()
            .filter(|line| said.contains(&format!("{line}\n")));
        let acknowledged = told
            .filter_map(|line| line.strip_prefix("size ")?.parse().ok())
            .next_back()
            .unwrap_or(size);
        let log = Log::open(room.log())?;
        // of the append that was under way all or nothing
        assert!([acknowledged, acknowledged + 2].contains(&log.len()));
        let entry = |i: usize| match i % 2 {
            0 => i.to_string(),
            _ => "and another".to_string(),
        };
        let leaves: Vec<Vec<u8>> = (0..log.len()).map(|i| entry(i).into_bytes()).collect();
        assert_eq!(log.root(log.len())?, mth(&digests(&leaves)));
        assert!(log.check()?);
        size = log.len();
    }
    assert!(size > 0);
    Ok(())
}
