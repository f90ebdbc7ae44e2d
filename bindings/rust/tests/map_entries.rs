//! The entries of maps as bytes, and maps of such bytes.
#![cfg(feature = "std")]

use paxidore::{Digest, Map, Refused};
use std::alloc::{GlobalAlloc, Layout, System};
use std::cell::Cell;

// Counts the bytes that the thread has, and the most that it had. What has more bytes than the largest one is refused.
struct Counted;

thread_local! {
    static HELD: Cell<(isize, isize)> = const { Cell::new((0, 0)) };
    static LARGEST: Cell<usize> = const { Cell::new(usize::MAX) };
}

fn count(bytes: isize) {
    // no longer there where the thread ends
    let _ = HELD.try_with(|held| {
        let (now, most) = held.get();
        held.set((now + bytes, most.max(now + bytes)));
    });
}

// SAFETY: each call is the system's, or is refused.
unsafe impl GlobalAlloc for Counted {
    unsafe fn alloc(&self, layout: Layout) -> *mut u8 {
        if LARGEST
            .try_with(Cell::get)
            .is_ok_and(|largest| layout.size() > largest)
        {
            return std::ptr::null_mut();
        }
        count(layout.size() as isize);
        System.alloc(layout)
    }

    unsafe fn dealloc(&self, memory: *mut u8, layout: Layout) {
        count(-(layout.size() as isize));
        System.dealloc(memory, layout)
    }
}

#[global_allocator]
static COUNTED: Counted = Counted;

// What a call returns, and the most bytes that the thread had within it beyond those before.
fn counted<T>(call: impl FnOnce() -> T) -> (T, usize) {
    let before = HELD.get().0;
    HELD.set((before, before));
    let result = call();
    (result, (HELD.get().1 - before) as usize)
}

// A key of which two in three are near another one, by some bit from the fourth byte on.
fn near(number: u64) -> Digest {
    let mut key = paxidore::sha256(&(number / 3).to_be_bytes());
    if number % 3 != 0 {
        key[(3 + 7 * number % 29) as usize] ^= 1 << (number % 8);
    }
    key
}

fn map_of(numbers: impl Iterator<Item = u64>) -> Result<Map, Refused> {
    let changes: Vec<_> = numbers.map(|n| (near(n), Some([n as u8; 32]))).collect();
    let mut map = Map::new();
    map.change(&changes)?;
    Ok(map)
}

#[test]
fn there_and_back() -> Result<(), Refused> {
    for count in [0, 1, 2, 3, 4, 7, 30, 500, 3000] {
        let map = map_of(0..count)?;
        let bytes = map.to_bytes();
        assert_eq!(bytes.len(), 64 * map.len());
        let mut copy = Map::from_bytes(&bytes, map.root())?;
        assert_eq!(copy.to_bytes(), bytes);
        assert_eq!((copy.root(), copy.len()), (map.root(), map.len()));
        assert_eq!(copy.entries(), map.entries());
        assert!(copy.check()?);
        // it goes on as a map does
        copy.insert([9; 32], [9; 32])?;
        copy.remove(&[9; 32])?;
        assert_eq!(copy.root(), map.root());
        let proof = copy.prove(&near(1))?;
        let value = (count > 1).then_some([1; 32]);
        assert!(Map::verify(map.root(), &near(1), value.as_ref(), &proof)?);
    }
    Ok(())
}

#[test]
fn the_least_and_the_last_key() -> Result<(), Refused> {
    let mut map = Map::new();
    assert_eq!(Map::from_bytes(&[], map.root())?.len(), 0);
    let last = [0xff; 32];
    let mut beside = last;
    beside[31] = 0xfe;
    map.change(&[[0; 32], beside, last].map(|key| (key, Some([7; 32]))))?;
    let bytes = map.to_bytes();
    assert_eq!(bytes[..64], [[0; 32], [7; 32]].concat());
    assert_eq!(Map::from_bytes(&bytes, map.root())?.len(), 3);
    Ok(())
}

// The refusal of bytes.
fn refused(bytes: &[u8], root: &Digest) -> Refused {
    Map::from_bytes(bytes, root).expect_err("it is no map of this root")
}

#[test]
fn what_is_refused() -> Result<(), Refused> {
    let map = map_of(0..15)?;
    let (bytes, root) = (map.to_bytes(), map.root());
    for place in 0..bytes.len() {
        let mut turned = bytes.clone();
        turned[place] ^= 1 << (place % 8);
        let why = refused(&turned, root);
        assert!(why == Refused::OtherRoot || why == Refused::Invalid && place % 64 < 32);
    }
    for end in 0..bytes.len() {
        let is_cut = end % 64 != 0;
        let why = if is_cut {
            Refused::Truncated
        } else {
            Refused::OtherRoot
        };
        assert_eq!(refused(&bytes[..end], root), why);
    }
    let entries: Vec<&[u8]> = bytes.chunks(64).collect();
    for place in 1..entries.len() {
        let mut swapped = entries.clone();
        swapped.swap(place - 1, place);
        assert_eq!(refused(&swapped.concat(), root), Refused::Invalid);
        let mut double = entries.clone();
        double.insert(place, entries[place]);
        assert_eq!(refused(&double.concat(), root), Refused::Invalid);
        // a second value at a key
        let (mut other, valued) = (entries.clone(), [&entries[place][..32], &[0; 32]].concat());
        other.insert(place, &valued);
        assert_eq!(refused(&other.concat(), root), Refused::Invalid);
    }
    assert_eq!(refused(&bytes, map_of(0..14)?.root()), Refused::OtherRoot);
    assert_eq!(refused(&bytes, Map::new().root()), Refused::OtherRoot);
    assert_eq!(refused(&[], root), Refused::OtherRoot);
    assert_eq!(
        Refused::OtherRoot.to_string(),
        "the entries of the map have another root"
    );
    Ok(())
}

#[test]
fn the_memory_of_what_is_refused() -> Result<(), Refused> {
    // pairs of keys with 255 bits alike: a map of them has some 240 forks for each
    let mut bytes = Vec::new();
    for number in 0..4_000u32 {
        let mut key = [0; 32];
        key[..4].copy_from_slice(&(number / 2).to_be_bytes());
        key[31] = (number % 2) as u8;
        bytes.extend_from_slice(&key);
        bytes.extend_from_slice(&[1; 32]);
    }
    let (why, most) = counted(|| refused(&bytes, &[9; 32]));
    assert_eq!(why, Refused::OtherRoot);
    assert!(most < 100_000, "{most} bytes");
    Ok(())
}

#[test]
fn the_memory_of_what_is_made() -> Result<(), Refused> {
    let map = map_of((0..15_000).step_by(3))?;
    let bytes = map.to_bytes();
    let (copy, most) = counted(|| Map::from_bytes(&bytes, map.root()));
    assert_eq!(copy?.root(), map.root());
    assert!(most < 500 * map.len(), "{most} bytes");
    // one change of many keys leaves out what is no longer there, too
    let changes: Vec<_> = map
        .entries()
        .into_iter()
        .map(|(key, value)| (key, Some(value)))
        .collect();
    let mut other = Map::new();
    let (done, most) = counted(|| other.change(&changes));
    assert_eq!((done, other.root()), (Ok(()), map.root()));
    assert!(most < 500 * map.len(), "{most} bytes");
    let gone: Vec<_> = changes.iter().map(|(key, _)| (*key, None)).collect();
    let (done, most) = counted(|| other.change(&gone));
    assert_eq!((done, other.root()), (Ok(()), Map::new().root()));
    assert!(most < 500 * map.len(), "{most} bytes");
    Ok(())
}

#[test]
fn a_change_that_finds_no_memory() -> Result<(), Refused> {
    let mut map = map_of((0..900).step_by(3))?;
    let (entries, root, old) = (map.entries(), *map.root(), map.version());
    let changes: Vec<_> = (0..9_000)
        .map(|n| (near(3 * n), (n % 7 != 0).then_some([3; 32])))
        .collect();
    // behind some copies of the map, and before the first one
    for limit in [400_000, 60_000] {
        LARGEST.set(limit);
        let done = map.change(&changes);
        LARGEST.set(usize::MAX);
        assert_eq!(done, Err(Refused::Memory));
        assert_eq!((map.entries(), map.root()), (entries.clone(), &root));
        assert!(map.check()?);
        assert!(map
            .differences(&old)
            .is_some_and(|mut rows| rows.next().is_none()));
    }
    map.change(&changes)?;
    assert!(map.check()?);
    Ok(())
}
