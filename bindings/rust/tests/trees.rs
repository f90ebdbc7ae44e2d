//! Kept trees, over both hashings.

use paxidore::{Refused, Tree, Trees};

const HASHINGS: [Trees; 2] = [Trees::SHA256, Trees::RFC6962];

fn hex(bytes: &[u8]) -> String {
    bytes.iter().map(|byte| format!("{byte:02x}")).collect()
}

// The entries that implementations of RFC 6962 are tested with.
const ENTRIES: [&[u8]; 8] = [
    b"",
    b"\x00",
    b"\x10",
    b"\x20\x21",
    b"\x30\x31",
    b"\x40\x41\x42\x43",
    b"\x50\x51\x52\x53\x54\x55\x56\x57",
    b"`abcdefghijklmno",
];

#[test]
fn roots_that_are_known() -> Result<(), Refused> {
    let roots = [
        "03b3e0e5b23746036c9c7185c1fc12bc6f8ff41cc2b97b24fb451f2cc291d2b4",
        "5dc9da79a70659a9ad559cb701ded9a2ab9d823aad2f4960cfe370eff4604328",
    ];
    for (trees, root) in HASHINGS.into_iter().zip(roots) {
        let tree = Tree::build(trees, &ENTRIES)?;
        assert_eq!(hex(&tree.root()?), root);
        assert_eq!((tree.len(), tree.memory().len()), (8, 32 * 15));
        assert_eq!(hex(&tree.memory()[..32]), root);
    }
    Ok(())
}

#[test]
fn progress() -> Result<(), Refused> {
    let leaves: Vec<Vec<u8>> = (0..4096).map(|i| vec![i as u8; i % 70]).collect();
    for trees in HASHINGS {
        let mut told = Vec::new();
        let tree = Tree::build_with(trees, &leaves, |done| told.push(done))?;
        assert_eq!(told, [1024, 2048, 3072, 4096]);
        assert_eq!(tree.memory(), Tree::build(trees, &leaves)?.memory());
    }
    let three = Tree::build_with(Trees::SHA256, &leaves[..3], |_| ()).map(Tree::into_memory);
    assert_eq!(three, Err(Refused::Size));
    Ok(())
}

#[test]
fn changes() -> Result<(), Refused> {
    for trees in HASHINGS {
        for log2 in 1..9 {
            let size = 1 << log2;
            let mut leaves: Vec<Vec<u8>> = (0..size).map(|i| vec![i as u8; i]).collect();
            let mut memory = vec![0xaa; Tree::bytes(size)].into_boxed_slice();
            let mut tree = Tree::build_in(trees, &mut memory, &leaves)?;
            for step in 0..size.min(20) {
                let index = (7 * step + 3) % size;
                leaves[index] = vec![step as u8; 40 + step];
                tree.set(index, &leaves[index])?;
                let root = trees.root(&leaves)?;
                assert_eq!(tree.root()?, root);
                assert_eq!(tree.path(index)?, trees.path(&leaves, index)?);
                assert!(trees.verify(&root, size, index, &leaves[index], &tree.path(index)?)?);
            }
            assert!(tree.check()?);
            // the digests above the leaves are written anew
            let whole = tree.into_memory().to_vec();
            memory[..32 * (size - 1)].fill(0);
            let mut tree = Tree::over(trees, memory)?;
            assert!(!tree.check()?);
            tree.rebuild()?;
            assert_eq!(tree.memory().to_vec(), whole);
        }
    }
    Ok(())
}

#[test]
fn several_changes() -> Result<(), Refused> {
    for trees in HASHINGS {
        let mut leaves: Vec<Vec<u8>> = (0..64).map(|i| vec![i as u8; i]).collect();
        let mut tree = Tree::build(trees, &leaves)?;
        for indexes in [&[63][..], &[0, 1, 2, 3, 40], &[9, 5, 9, 8, 5, 63]] {
            let others: Vec<Vec<u8>> = (0..indexes.len()).map(|i| vec![7; 50 + i]).collect();
            tree.set_many(indexes, &others)?;
            for (&index, other) in indexes.iter().zip(&others) {
                leaves[index].clone_from(other);
            }
            assert_eq!(tree.memory(), Tree::build(trees, &leaves)?.memory());
        }
        let before = tree.memory().clone();
        assert_eq!(tree.set_many(&[0, 64], &["", ""]), Err(Refused::Index));
        assert_eq!(tree.set_many::<&[u8]>(&[], &[]), Err(Refused::Index));
        assert_eq!(tree.set_many(&[0, 1], &[""]), Err(Refused::Count));
        assert_eq!(tree.memory(), &before);
    }
    Ok(())
}

#[test]
fn multi_paths() -> Result<(), Refused> {
    for trees in HASHINGS {
        for log2 in 1..9 {
            let leaves: Vec<Vec<u8>> = (0..1 << log2).map(|i| vec![i as u8; i]).collect();
            let tree = Tree::build(trees, &leaves)?;
            let all: Vec<usize> = (0..leaves.len()).rev().collect();
            for indexes in [&all[..], &all[..1], &[1, 0, 1], &[0; 1000]] {
                let proof = trees.multi_path(&leaves, indexes)?;
                assert_eq!(tree.multi_path(indexes)?, proof);
            }
            assert_eq!(tree.multi_path(&[]), Err(Refused::Index));
            assert_eq!(tree.multi_path(&[0, leaves.len()]), Err(Refused::Index));
        }
    }
    Ok(())
}

#[test]
fn each_byte_that_is_flipped_is_found() -> Result<(), Refused> {
    for trees in HASHINGS {
        let whole = Tree::build(trees, &ENTRIES)?.into_memory();
        for place in 0..whole.len() {
            let mut other = whole.clone();
            other[place] ^= 1 << (place % 8);
            assert_eq!(Tree::over(trees, other)?.check(), Ok(false));
        }
    }
    Ok(())
}

#[test]
fn joins() -> Result<(), Refused> {
    let leaves: Vec<Vec<u8>> = (0..64).map(|i| vec![i as u8; i]).collect();
    for trees in HASHINGS {
        for size in [2, 4, 8, 16, 32, 64] {
            for count in (0..7).map(|log2| 1 << log2) {
                let parts: Result<Vec<_>, _> = leaves
                    .chunks(size)
                    .take(count)
                    .map(|share| Tree::build(trees, share))
                    .collect();
                let (parts, all) = (parts?, &leaves[..(size * count).min(64)]);
                let whole = Tree::build(trees, all)?.into_memory();
                assert_eq!(Tree::join(trees, &parts)?.into_memory(), whole);
            }
        }
        let (small, large) = (
            Tree::build(trees, &leaves[..2])?,
            Tree::build(trees, &leaves[..4])?,
        );
        let refused = |parts: &[Tree<Vec<u8>>]| Tree::join(trees, parts).map(Tree::into_memory);
        assert_eq!(refused(&[]), Err(Refused::Size));
        assert_eq!(
            refused(&[small.clone(), small.clone(), small.clone()]),
            Err(Refused::Size)
        );
        assert_eq!(refused(&[small.clone(), large.clone()]), Err(Refused::Size));
        assert_eq!(refused(&[large, small]), Err(Refused::Size));
    }
    Ok(())
}

#[test]
fn refusals() -> Result<(), Refused> {
    for trees in HASHINGS {
        for count in [0, 1, 3, 5, 6, 7] {
            let refused = Tree::build(trees, &ENTRIES[..count]).map(Tree::into_memory);
            assert_eq!(refused, Err(Refused::Size));
        }
        for length in [0, 1, 32, 64, 95, 97, 32 * 5, 32 * 15 - 1, 32 * 16] {
            let refused = Tree::over(trees, vec![0; length]).map(Tree::into_memory);
            assert_eq!(refused, Err(Refused::Size));
            let mut memory = vec![0xaa; length];
            let refused = Tree::build_in(trees, &mut memory, &ENTRIES).map(|_| ());
            assert_eq!(refused, Err(Refused::Size));
            assert_eq!(memory, vec![0xaa; length]);
        }
        let mut tree = Tree::build(trees, &ENTRIES)?;
        let before = tree.memory().clone();
        for index in [8, 15, usize::MAX] {
            assert_eq!(tree.path(index), Err(Refused::Index));
            assert_eq!(tree.set(index, b"other"), Err(Refused::Index));
        }
        assert_eq!(tree.memory(), &before);
    }
    Ok(())
}
