//! Following a log whose files are made here, out of the definitions of RFC 6962.

use std::collections::HashMap;
use std::io;

use paxidore::notes::{sign_checkpoint, verifier_text};
use paxidore::{ed25519, follow, sha256, Digest, FollowError, Log, Refused};

const NAME: &str = "example.com/log";
const SEED: ed25519::Seed = [9; 32];

type Files = HashMap<String, Vec<u8>>;

fn node(digests: &[Digest]) -> Digest {
    match digests {
        [] => sha256(&[]),
        [digest] => *digest,
        _ => {
            let (left, right) = digests.split_at(digests.len().next_power_of_two() / 2);
            sha256(&[&[1], &node(left)[..], &node(right)[..]].concat())
        }
    }
}

// The digests of entries, another log's from a place on.
fn digests(size: usize, other_from: usize) -> Vec<Digest> {
    (0..size)
        .map(|i| sha256(format!("\0{} {i}", i >= other_from).as_bytes()))
        .collect()
}

fn site(digests: &[Digest]) -> Result<Files, Refused> {
    let size = digests.len();
    let note = sign_checkpoint(&SEED, NAME, NAME, &node(digests), size)?;
    let mut files = Files::from([("checkpoint".to_string(), note)]);
    for level in 0..2 {
        let row: Vec<Digest> = digests.chunks_exact(1 << (8 * level)).map(node).collect();
        for (index, tile) in row.chunks(256).enumerate() {
            let end = match tile.len() {
                256 => String::new(),
                width => format!(".p/{width}"),
            };
            files.insert(format!("tile/{level}/{index:03}{end}"), tile.concat());
        }
    }
    Ok(files)
}

fn read(files: &Files) -> impl FnMut(&str) -> io::Result<Vec<u8>> + '_ {
    |name| {
        files
            .get(name)
            .cloned()
            .ok_or_else(|| io::Error::from(io::ErrorKind::NotFound))
    }
}

fn policy() -> Result<String, Refused> {
    let key = verifier_text(NAME, &ed25519::public_key(&SEED))?;
    Ok(format!("log {key}\nquorum none\n"))
}

#[test]
fn a_log_that_grows() -> Result<(), FollowError> {
    let mut state: Option<Vec<u8>> = None;
    for size in [
        0, 1, 2, 3, 5, 8, 255, 256, 257, 511, 700, 65535, 65536, 65600,
    ] {
        let digests = digests(size, usize::MAX);
        let files = site(&digests)?;
        let (head, note) = follow(read(&files), &policy()?, 0, "", state.as_deref())?;
        assert_eq!((head.size, head.root), (size, node(&digests)));
        assert_eq!(note, files["checkpoint"]);
        state = Some(note);
    }
    let files = site(&digests(300, usize::MAX))?;
    assert!(matches!(
        follow(read(&files), &policy()?, 0, "", state.as_deref()),
        Err(FollowError::OldCheckpoint)
    ));
    Ok(())
}

#[test]
fn a_log_that_forks() -> Result<(), FollowError> {
    for (old, size, place) in [(5, 9, 3), (256, 700, 255), (300, 301, 299), (4, 4, 1)] {
        let first = site(&digests(old, usize::MAX))?;
        let other = digests(size, place);
        let files = site(&other)?;
        let state = Some(&first["checkpoint"][..]);
        match follow(read(&files), &policy()?, 0, "", state) {
            Err(FollowError::Fork {
                note,
                other_root,
                proof,
            }) => {
                assert_eq!(note, files["checkpoint"]);
                assert_eq!(other_root, node(&other[..old]));
                assert!(Log::verify_consistency(
                    &other_root,
                    old,
                    &node(&other),
                    size,
                    &proof
                )?);
            }
            other => panic!("{other:?}"),
        }
    }
    Ok(())
}

#[test]
fn a_site_that_is_damaged() -> Result<(), FollowError> {
    let old = site(&digests(300, usize::MAX))?;
    let state = Some(&old["checkpoint"][..]);
    let good = site(&digests(600, usize::MAX))?;
    let refused = |files: &Files| follow(read(files), &policy()?, 0, "", state);
    for name in ["tile/0/001", "tile/0/002.p/88"] {
        let mut files = good.clone();
        files.remove(name);
        assert!(matches!(refused(&files), Err(FollowError::Io(_))));
        for damaged in [vec![], vec![0; 9000], vec![0; good[name].len()]] {
            files.insert(name.to_string(), damaged);
            assert!(matches!(refused(&files), Err(FollowError::WrongTiles)));
        }
    }
    let mut files = good.clone();
    files.insert("checkpoint".to_string(), b"no note".to_vec());
    assert!(matches!(
        refused(&files),
        Err(FollowError::Refused(Refused::Invalid))
    ));
    assert!(refused(&good).is_ok());
    Ok(())
}
