//! Maps against a `BTreeMap` and the recursion of the definition, with hashes of the library's own SHA-256.
#![cfg(feature = "std")]

use paxidore::{Digest, Map, Refused};
use std::collections::{BTreeMap, BTreeSet};

fn sha256(parts: &[&[u8]]) -> Digest {
    paxidore::sha256(&parts.concat())
}

// A key of which two in three are near another one.
fn near(number: u64) -> Digest {
    let mut key = sha256(&[b"key", &(number - number % 3).to_be_bytes()]);
    if number % 3 != 0 {
        key[3 + (number % 5) as usize] ^= 1 << (number % 8);
    }
    key
}

fn bit(key: &Digest, level: usize) -> bool {
    key[level / 8] >> (7 - level % 8) & 1 == 1
}

// The digest of entries below a place, as the definition has it.
fn digest_of(entries: &[(Digest, Digest)], level: usize) -> Digest {
    match entries {
        [] => sha256(&[]),
        [(key, value)] => sha256(&[&[0], key, value]),
        _ => {
            let side = |one| -> Vec<(Digest, Digest)> {
                let has = |entry: &&(Digest, Digest)| bit(&entry.0, level) == one;
                entries.iter().filter(has).copied().collect()
            };
            let (left, right) = (
                digest_of(&side(false), level + 1),
                digest_of(&side(true), level + 1),
            );
            sha256(&[&[1], &left, &right])
        }
    }
}

// Rounds of changes; PAXIDORE_ROUNDS=400000, some million changes, takes the long way.
fn rounds() -> u64 {
    let asked = std::env::var("PAXIDORE_ROUNDS").ok();
    asked.and_then(|text| text.parse().ok()).unwrap_or(600)
}

#[test]
fn agrees_with_the_definition() -> Result<(), Refused> {
    let (mut map, mut entries, mut state) = (Map::new(), BTreeMap::new(), 6962u64);
    let (mut old, mut older) = (map.version(), BTreeMap::new());
    let mut drawn = |bound: u64| {
        state ^= state << 13;
        state ^= state >> 7;
        state ^= state << 17;
        (state >> 16) % bound
    };
    for turn in 0..rounds() {
        let count = 1 + drawn(4);
        let mut changes = Vec::new();
        for step in 0..count {
            let key = near(drawn(40));
            let value = (drawn(10) < 6).then(|| sha256(&[b"value", &[turn as u8, step as u8]]));
            changes.push((key, value));
            match value {
                Some(value) => entries.insert(key, value),
                None => entries.remove(&key),
            };
        }
        let (before, witness) = (*map.root(), map.witness(&changes));
        assert_eq!(Map::root_of_tree(&witness)?, before);
        map.change(&changes)?;
        assert_eq!(
            Map::changed_root(&before, &changes, &witness)?,
            Some(*map.root())
        );
        assert_eq!(Map::changed_root(&[9; 32], &changes, &witness)?, None);
        let all: Vec<(Digest, Digest)> =
            entries.iter().map(|(key, value)| (*key, *value)).collect();
        assert_eq!(*map.root(), digest_of(&all, 0));
        assert_eq!(map.len(), entries.len());
        let asked = near(drawn(60));
        let (proof, value) = (map.prove(&asked)?, entries.get(&asked));
        assert_eq!(map.get(&asked).as_ref(), value);
        assert!(Map::verify(map.root(), &asked, value, &proof)?);
        assert!(!Map::verify(map.root(), &asked, Some(&[7; 32]), &proof)?);
        assert!(value.is_none() || !Map::verify(map.root(), &asked, None, &proof)?);
        let next = entries.range(asked..).next();
        assert_eq!(
            map.first_from(&asked),
            next.map(|(key, value)| (*key, *value))
        );
        assert_eq!(
            Map::prove_by_tree(&map.witness(&[(asked, None)]), &asked)?,
            proof
        );
        let told: Vec<_> = map.differences(&old).into_iter().flatten().collect();
        let keys: BTreeSet<Digest> = older.keys().chain(entries.keys()).copied().collect();
        let wanted: Vec<_> = keys
            .into_iter()
            .map(|key| (key, older.get(&key).copied(), entries.get(&key).copied()))
            .filter(|(_, old, new)| old != new)
            .collect();
        assert!(map.differences(&old).is_none() || told == wanted);
        assert!(map.clone().differences(&map.version()).is_none());
        if turn % 3 == 0 {
            (old, older) = (map.version(), entries.clone());
        }
        let (first, last) = (near(drawn(60)), near(drawn(60)));
        let tree = map.prove_range(&first, &last)?;
        let there: Vec<(Digest, Digest)> = all
            .iter()
            .filter(|(key, _)| first <= *key && *key <= last)
            .copied()
            .collect();
        assert_eq!(
            Map::verify_range(map.root(), &first, &last, &tree)?,
            Some(there)
        );
        assert_eq!(Map::verify_range(&[9; 32], &first, &last, &tree)?, None);
        let tree = map.prove_many(&[asked, first])?;
        assert_eq!(Map::root_of_tree(&tree)?, *map.root());
        assert_eq!(Map::prove_by_tree(&tree, &asked)?, proof);
        if turn % 50 == 0 {
            assert_eq!(map.entries(), all);
            assert!(map.check()?);
        }
    }
    Ok(())
}

#[test]
fn single_changes() -> Result<(), Refused> {
    let mut map = Map::new();
    assert!(map.is_empty());
    map.insert(near(1), [1; 32])?;
    let copy = map.clone();
    map.insert(near(2), [2; 32])?;
    map.remove(&near(2))?;
    map.remove(&near(9))?;
    assert_eq!(map.root(), copy.root());
    assert_eq!(format!("{map:?}"), "Map { len: 1, .. }");
    map.remove(&near(1))?;
    assert_eq!(*map.root(), sha256(&[]));
    Ok(())
}

#[test]
fn bytes_that_are_no_proof() -> Result<(), Refused> {
    let mut map = Map::new();
    map.insert(near(1), [1; 32])?;
    map.insert(near(2), [2; 32])?;
    let proof = map.prove(&near(1))?;
    let check = |bytes: &[u8]| Map::verify(map.root(), &near(1), Some(&[1; 32]), bytes);
    assert_eq!(check(&proof), Ok(true));
    for end in 0..proof.len() {
        assert_eq!(check(&proof[..end]), Err(Refused::Truncated));
    }
    let mut longer = proof.clone();
    longer.push(0);
    assert_eq!(check(&longer), Err(Refused::Invalid));
    let mut other = proof;
    other[0] = 3;
    assert_eq!(check(&other), Err(Refused::Invalid));
    let hidden = [&[3], &map.root()[..]].concat();
    let change = [(near(1), None)];
    assert_eq!(
        Map::changed_root(map.root(), &change, &hidden),
        Err(Refused::Hidden)
    );
    assert_eq!(Map::root_of_tree(&[]), Err(Refused::Truncated));
    Ok(())
}
