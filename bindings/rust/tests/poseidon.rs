//! circomlib's hash. The numbers are circomlib's own.

use paxidore::poseidon::{table_bytes, ByteOrder, Log, Table};
use paxidore::{Digest, Refused};

type Room = Table<{ table_bytes(16) }>;

// So many elements, each one above the one before.
fn inputs(first: u8, count: usize, order: ByteOrder) -> Vec<u8> {
    let mut bytes = vec![0; 32 * count];
    for (i, element) in bytes.chunks_mut(32).enumerate() {
        element[if order == ByteOrder::BigEndian { 31 } else { 0 }] = first + i as u8;
    }
    bytes
}

fn hex(digest: Digest) -> String {
    digest.iter().map(|byte| format!("{byte:02x}")).collect()
}

#[test]
fn hashes_are_those_of_circomlib() -> Result<(), Refused> {
    for (first, count, text) in [
        (
            1,
            1,
            "29176100eaa962bdc1fe6c654d6a3c130e96a4d1168b33848b897dc502820133",
        ),
        (
            1,
            2,
            "115cc0f5e7d690413df64c6b9662e9cf2a3617f2743245519e19607a4417189a",
        ),
        (
            1,
            3,
            "0e7732d89e6939c0ff03d5e58dab6302f3230e269dc5b968f725df34ab36d732",
        ),
        (
            0,
            16,
            "1b733f2ff41971b23819a16bc8c16bbe13d98173358429fcc12f6f0826407a56",
        ),
    ] {
        let table = Room::new(count)?;
        let hash = table.hash(
            ByteOrder::BigEndian,
            &inputs(first, count, ByteOrder::BigEndian),
        )?;
        assert_eq!(hex(hash), text);
        let mut hash = table.hash(
            ByteOrder::LittleEndian,
            &inputs(first, count, ByteOrder::LittleEndian),
        )?;
        hash.reverse();
        assert_eq!(hex(hash), text);
    }
    Ok(())
}

#[test]
fn refusals_have_names() -> Result<(), Refused> {
    for count in [0, 17, usize::MAX] {
        assert_eq!(Room::new(count).err(), Some(Refused::Count));
    }
    assert_eq!(Table::<64>::new(2).err(), Some(Refused::Room));
    let table = Room::new(2)?;
    for count in [0, 1, 3, 17] {
        assert_eq!(
            table.hash(ByteOrder::BigEndian, &vec![0; 32 * count]),
            Err(Refused::Count)
        );
    }
    assert_eq!(
        table.hash(ByteOrder::BigEndian, &[0; 63]),
        Err(Refused::Truncated)
    );
    assert_eq!(
        table.hash(ByteOrder::BigEndian, &[255; 64]),
        Err(Refused::Invalid)
    );
    assert_eq!(
        table.hash(ByteOrder::LittleEndian, &[255; 64]),
        Err(Refused::Invalid)
    );
    assert!(Table::<{ table_bytes(2) }>::new(2).is_ok());
    Ok(())
}

// So many elements, with the least byte first.
fn elements(count: u8) -> Vec<Digest> {
    (0..count)
        .map(|i| {
            let mut element = [i; 32];
            element[31] = 0;
            element
        })
        .collect()
}

// The root by hashes of pairs, and the path of an index.
fn model(
    table: &Table<{ table_bytes(2) }>,
    mut row: Vec<Digest>,
    mut index: usize,
) -> (Digest, Vec<u8>) {
    let mut path = Vec::new();
    while row.len() > 1 {
        if let Some(beside) = row.get(index ^ 1) {
            path.extend(beside);
        }
        row = row
            .chunks(2)
            .map(|pair| match pair {
                [alone] => *alone,
                _ => table.hash(ByteOrder::LittleEndian, &pair.concat()).unwrap(),
            })
            .collect();
        index /= 2;
    }
    (row[0], path)
}

#[test]
fn trees_are_those_of_a_model() -> Result<(), Refused> {
    let table = Table::<{ table_bytes(2) }>::new(2)?;
    let mut log = Log::new(&table);
    for size in 1..20 {
        let given = elements(size as u8);
        assert_eq!(log.append(&given[size - 1..])?, size);
        for index in 0..size {
            let (root, path) = model(&table, given.clone(), index);
            let mut room = [[0; 32]; 5];
            let count = table.path(&mut room, &given, index)?;
            assert_eq!(table.root(&given)?, root);
            assert_eq!(log.root(size)?, root);
            assert_eq!(room[..count].concat(), path);
            assert_eq!(log.inclusion(size, index)?, path);
            assert!(table.verify(&root, size, index, &given[index], &path)?);
            assert!(!table.verify(&root, size, index, &[7; 32].map(|byte| byte / 7), &path)?);
        }
    }
    Ok(())
}

#[test]
fn changed_trees_are_those_of_a_model() -> Result<(), Refused> {
    let table = Table::<{ table_bytes(2) }>::new(2)?;
    for size in 1..20 {
        let mut given = elements(size as u8);
        let mut log = Log::new(&table);
        log.append(&given)?;
        for index in 0..size {
            given[index] = [if index % 3 == 0 { 0 } else { 32 + index as u8 }; 32];
            given[index][31] = 0;
            log.set(index, &given[index])?;
            for old in [size, 1 + size / 2] {
                let (root, path) = model(&table, given[..old].to_vec(), index % old);
                assert_eq!(log.root(old)?, root);
                assert_eq!(log.inclusion(old, index % old)?, path);
            }
        }
        let more = elements(3);
        log.append(&more)?;
        given.extend(more);
        assert_eq!(log.root(size + 3)?, table.root(&given)?);
    }
    Ok(())
}

#[test]
fn changes_refuse() -> Result<(), Refused> {
    let (two, three) = (Table::<{ table_bytes(2) }>::new(2)?, Room::new(3)?);
    let given = elements(5);
    let mut log = Log::new(&two);
    assert_eq!(log.set(0, &given[0]), Err(Refused::Index));
    log.append(&given)?;
    let root = log.root(5)?;
    for index in [5, 6, 1 << 63, usize::MAX] {
        assert_eq!(log.set(index, &given[0]), Err(Refused::Index));
        assert_eq!(log.set(index, &[255; 32]), Err(Refused::Index));
    }
    for index in 0..5 {
        assert_eq!(log.set(index, &[255; 32]), Err(Refused::Invalid));
    }
    assert_eq!(log.root(5), Ok(root));
    assert_eq!(Log::new(&three).set(0, &given[0]), Err(Refused::Count));
    Ok(())
}

// The roots of the complete trees of a list, the largest first.
fn peaks(table: &Table<{ table_bytes(2) }>, given: &[Digest]) -> Vec<u8> {
    let (mut at, mut found) = (0, Vec::new());
    for level in (0..8).rev() {
        if given.len() >> level & 1 == 1 {
            found.extend(model(table, given[at..at + (1 << level)].to_vec(), 0).0);
            at += 1 << level;
        }
    }
    found
}

#[test]
fn insertions_are_those_of_a_model() -> Result<(), Refused> {
    let table = Table::<{ table_bytes(2) }>::new(2)?;
    let given = elements(40);
    let mut log = Log::new(&table);
    log.append(&given)?;
    for size in 1..36 {
        let proof = log.insertion_proof(size)?;
        assert_eq!(proof, peaks(&table, &given[..size]));
        let (root, _) = model(&table, given[..size].to_vec(), 0);
        for count in [0, 1, 2, 4, 40 - size] {
            let more = &given[size..size + count];
            let (new_root, _) = model(&table, given[..size + count].to_vec(), 0);
            assert_eq!(
                table.verify_insertion(&root, size, more, &proof)?,
                Some(new_root)
            );
        }
        let mut other = proof.clone();
        other[7] ^= 1;
        assert_eq!(
            table.verify_insertion(&root, size, &given[..2], &other)?,
            None
        );
        assert_eq!(
            table.verify_insertion(&given[39], size, &given[..2], &proof)?,
            None
        );
        assert_ne!(
            table.verify_insertion(&root, size, &[given[1], given[0]], &proof)?,
            table.verify_insertion(&root, size, &given[..2], &proof)?
        );
    }
    Ok(())
}

#[test]
fn insertions_refuse() -> Result<(), Refused> {
    let (two, three) = (Table::<{ table_bytes(2) }>::new(2)?, Room::new(3)?);
    let given = elements(3);
    let mut log = Log::new(&two);
    assert_eq!(log.insertion_proof(0), Err(Refused::Size));
    log.append(&given)?;
    let (root, proof) = (log.root(3)?, log.insertion_proof(3)?);
    for size in [0, 4, 1 << 63, usize::MAX] {
        assert_eq!(log.insertion_proof(size), Err(Refused::Size));
    }
    for size in [0, (1 << 63) - 3, 1 << 63, usize::MAX] {
        assert_eq!(
            two.verify_insertion(&root, size, &given, &proof),
            Err(Refused::Size)
        );
    }
    assert_eq!(
        three.verify_insertion(&root, 3, &given, &proof),
        Err(Refused::Count)
    );
    assert_eq!(
        two.verify_insertion(&root, 3, &[[255; 32]], &proof),
        Err(Refused::Invalid)
    );
    assert_eq!(
        two.verify_insertion(&root, 3, &given, &proof[1..]),
        Err(Refused::Truncated)
    );
    assert_eq!(
        two.verify_insertion(&root, 3, &given, &[0; 65]),
        Err(Refused::Invalid)
    );
    assert_eq!(
        two.verify_insertion(&root, 3, &given, &[255; 64]),
        Err(Refused::Invalid)
    );
    Ok(())
}

#[test]
fn trees_refuse() -> Result<(), Refused> {
    let (two, three) = (Table::<{ table_bytes(2) }>::new(2)?, Room::new(3)?);
    let (given, mut room) = (elements(3), [[0; 32]; 1]);
    assert_eq!(three.root(&given), Err(Refused::Count));
    assert_eq!(two.root(&[]), Err(Refused::Size));
    assert_eq!(two.root(&[[255; 32]]), Err(Refused::Invalid));
    assert_eq!(two.path(&mut room, &given, 3), Err(Refused::Index));
    assert_eq!(two.path(&mut room, &given, 0), Err(Refused::Room));
    assert_eq!(
        two.verify(&given[0], 3, 0, &given[0], &[0; 63]),
        Err(Refused::Truncated)
    );
    assert_eq!(
        two.verify(&given[0], 3, 0, &given[0], &[255; 64]),
        Err(Refused::Invalid)
    );
    let mut log = Log::new(&two);
    assert_eq!(log.append(&[[0; 32], [255; 32]]), Err(Refused::Invalid));
    assert_eq!(
        (log.len(), log.is_empty(), log.root(0)),
        (0, true, Err(Refused::Size))
    );
    assert_eq!(log.inclusion(0, 0), Err(Refused::Size));
    assert_eq!(
        two.verify(&given[0], 0, 0, &given[0], &[]),
        Err(Refused::Size)
    );
    assert_eq!(
        two.verify(&given[0], 3, 3, &given[0], &[]),
        Err(Refused::Index)
    );
    assert_eq!(log.append(&[]), Ok(0));
    assert_eq!(Log::new(&three).append(&given), Err(Refused::Count));
    Ok(())
}
