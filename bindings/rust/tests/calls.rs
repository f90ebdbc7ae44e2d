//! Each call once, the refusals, and values of other implementations.

use paxidore::{
    blake2s, blake2s_commit, blake2s_opens, cpu, sha256, version, Blake2s, Log, Refused, Trees,
};

fn hex(bytes: &[u8]) -> String {
    bytes.iter().map(|byte| format!("{byte:02x}")).collect()
}

// The entries that implementations of RFC 6962 are tested with.
const ENTRIES: [&[u8]; 8] = [
    b"",
    b"\x00",
    b"\x10",
    b"\x20\x21",
    b"\x30\x31",
    b"\x40\x41\x42\x43",
    b"\x50\x51\x52\x53\x54\x55\x56\x57",
    b"`abcdefghijklmno",
];

#[test]
fn roots() {
    let of = |trees: Trees, count: usize| trees.root(&ENTRIES[..count]).map(|root| hex(&root));
    let known = [
        (
            2,
            "fac54203e7cc696cf0dfcb42c92a1d9dbaf70ad9e621f4bd8d98662f00e3c125",
        ),
        (
            4,
            "d37ee418976dd95753c1c73862b9398fa2a2cf9b4ff0fdfe8b30cd95209614b7",
        ),
        (
            8,
            "5dc9da79a70659a9ad559cb701ded9a2ab9d823aad2f4960cfe370eff4604328",
        ),
    ];
    for (count, root) in known {
        assert_eq!(of(Trees::RFC6962, count).as_deref(), Ok(root));
    }
    let plain = "03b3e0e5b23746036c9c7185c1fc12bc6f8ff41cc2b97b24fb451f2cc291d2b4";
    assert_eq!(of(Trees::SHA256, 8).as_deref(), Ok(plain));
    for count in [0, 1, 3, 5, 6, 7] {
        assert_eq!(of(Trees::SHA256, count), Err(Refused::Size));
    }
}

#[test]
fn paths() -> Result<(), Refused> {
    for trees in [Trees::SHA256, Trees::RFC6962] {
        let root = trees.root(&ENTRIES)?;
        for (index, leaf) in ENTRIES.iter().enumerate() {
            let path = trees.path(&ENTRIES, index)?;
            assert!(trees.verify(&root, 8, index, leaf, &path)?);
            assert!(!trees.verify(&root, 8, index, b"other", &path)?);
            assert_eq!(
                trees.verify(&root, 8, index ^ 1, leaf, &path),
                Err(Refused::Invalid)
            );
            assert_eq!(
                trees.verify(&root, 8, index + 8, leaf, &path),
                Err(Refused::Index)
            );
            assert_eq!(
                trees.verify(&root, 16, index, leaf, &path),
                Err(Refused::Height)
            );
            assert_eq!(
                trees.verify(&root, 7, index, leaf, &path),
                Err(Refused::Size)
            );
            assert_eq!(
                trees.verify(&root, 8, index, leaf, &path[1..]),
                Err(Refused::Truncated)
            );
            for bit in 0..8 * path.len() {
                let mut other = path.clone();
                other[bit / 8] ^= 1 << (bit % 8);
                assert_ne!(trees.verify(&root, 8, index, leaf, &other), Ok(true));
            }
        }
        assert_eq!(trees.path(&ENTRIES, 8), Err(Refused::Index));
        assert_eq!(trees.path(&ENTRIES[..3], 0), Err(Refused::Size));
        assert_eq!(trees.path::<&[u8]>(&[], 0), Err(Refused::Size));
    }
    Ok(())
}

#[test]
fn multi_paths() -> Result<(), Refused> {
    for trees in [Trees::SHA256, Trees::RFC6962] {
        let root = trees.root(&ENTRIES)?;
        for set in 1..256_usize {
            let indexes: Vec<usize> = (0..8).filter(|index| set >> index & 1 == 1).collect();
            let leaves: Vec<&[u8]> = indexes.iter().map(|&index| ENTRIES[index]).collect();
            let proof = trees.multi_path(&ENTRIES, &indexes)?;
            assert!(trees.multi_verify(&root, 8, &indexes, &leaves, &proof)?);
            assert_eq!(
                trees.multi_verify(&root, 8, &indexes, &leaves[1..], &proof),
                Err(Refused::Count)
            );
            assert!(trees
                .multi_verify(&root, 8, &indexes, &leaves, &proof[1..])
                .is_err());
        }
        assert_eq!(trees.multi_path(&ENTRIES, &[]), Err(Refused::Index));
        assert_eq!(trees.multi_path(&ENTRIES, &[3, 8]), Err(Refused::Index));
        assert_eq!(
            trees.multi_verify(&root, 8, &[3, 8], &ENTRIES[..2], &[]),
            Err(Refused::Index)
        );
        assert_eq!(
            trees.multi_verify::<&[u8]>(&root, 8, &[], &[], &[]),
            Err(Refused::Index)
        );
    }
    Ok(())
}

fn unhex(text: &str) -> Vec<u8> {
    (0..text.len() / 2)
        .map(|i| u8::from_str_radix(&text[2 * i..2 * i + 2], 16).expect("two digits"))
        .collect()
}

// The roots of three and seven entries, and the proof that seven continue three, by a recursion over Python's hashlib.
const ROOT_3: &str = "aeb6bcfe274b70a14fb067a5e5578264db0fa9b51af5e0ba159158f329e06e77";
const ROOT_7: &str = "ddb89be403809e325750d3d263cd78929c2942b7942a34b77e122c9594a74c8c";
const PROOF_7: [&str; 4] = [
    "0298d122906dcfc10892cb53a73992fc5b9f493ea4c9badb27b791b4127a7fe7",
    "07506a85fd9dd2f120eb694f86011e5bb4662e5c415a62917033d4a9624487e7",
    "fac54203e7cc696cf0dfcb42c92a1d9dbaf70ad9e621f4bd8d98662f00e3c125",
    "837dbb152e9b079010717e84e865da4ebc0fa198a806d59d31bf15accef22d0e",
];

#[test]
fn logs() -> Result<(), Refused> {
    let root = |text: &str| -> [u8; 32] { unhex(text).try_into().expect("32 bytes") };
    let (three, seven) = (root(ROOT_3), root(ROOT_7));
    let path = unhex(&[PROOF_7[0], PROOF_7[2], PROOF_7[3]].concat());
    assert!(Log::verify_inclusion(&seven, 7, 3, ENTRIES[3], &path)?);
    assert!(!Log::verify_inclusion(&seven, 7, 3, ENTRIES[4], &path)?);
    assert_eq!(
        Log::verify_inclusion(&seven, 7, 7, ENTRIES[3], &path),
        Err(Refused::Index)
    );
    assert_eq!(
        Log::verify_inclusion(&seven, 7, 3, ENTRIES[3], &path[1..]),
        Err(Refused::Truncated)
    );
    let proof = unhex(&PROOF_7.concat());
    assert!(Log::verify_consistency(&three, 3, &seven, 7, &proof)?);
    assert!(!Log::verify_consistency(&seven, 3, &seven, 7, &proof)?);
    assert_eq!(
        Log::verify_consistency(&three, 0, &seven, 7, &proof),
        Err(Refused::Size)
    );
    assert_eq!(
        Log::verify_consistency(&three, 4, &seven, 7, &proof),
        Err(Refused::Invalid)
    );
    Ok(())
}

#[test]
fn a_digest_piece_by_piece() {
    let text: Vec<u8> = (0..1000u32).map(|i| (i * 7) as u8).collect();
    for cut in [0, 1, 63, 64, 65, 128, 999, 1000] {
        let mut under_way = Blake2s::new();
        under_way.update(&text[..cut]);
        let other = under_way.clone();
        under_way.update(&text[cut..]);
        assert_eq!(under_way.finalize(), blake2s(&text));
        assert_eq!(other.finalize(), blake2s(&text[..cut]));
    }
}

#[test]
fn commitments() {
    // by Python's hashlib
    let nonce: [u8; 32] = std::array::from_fn(|i| i as u8);
    let commitment = blake2s_commit(b"abc", &nonce);
    assert_eq!(
        hex(&commitment),
        "e0f7bc605522dd045ccd1954b126f0900edac1411fe3a003d999438ba30b6434"
    );
    assert_eq!(
        hex(&blake2s_commit(b"", &nonce)),
        "05825607d7fdf2d82ef4c3c8c2aea961ad98d60edff7d018983e21204c0d93d1"
    );
    assert!(blake2s_opens(&commitment, b"abc", &nonce));
    assert!(!blake2s_opens(&commitment, b"abd", &nonce));
    assert!(!blake2s_opens(&commitment, b"ab", &nonce));
    assert!(!blake2s_opens(&commitment, b"abc", &[0; 32]));
    for bit in 0..256 {
        let mut other = commitment;
        other[bit / 8] ^= 1 << (bit % 8);
        assert!(!blake2s_opens(&other, b"abc", &nonce));
    }
}

#[test]
fn others() {
    // FIPS 180-4's example, and no bytes by Python's hashlib
    assert_eq!(
        hex(&sha256(b"abc")),
        "ba7816bf8f01cfea414140de5dae2223b00361a396177a9cb410ff61f20015ad"
    );
    assert_eq!(
        hex(&sha256(b"")),
        "e3b0c44298fc1c149afbf4c8996fb92427ae41e4649b934ca495991b7852b855"
    );
    // RFC 7693, appendix B
    let abc = "508c5e8c327c14e2e1a72ba34eeb452f37458b209ed63a294d999b4c86675982";
    assert_eq!(hex(&blake2s(b"abc")), abc);
    assert_eq!(version(), "1.0.0");
    // the test of the bindings names the build that has to run
    let build = std::env::var("PAXIDORE_BUILD");
    assert_eq!(cpu(), build.as_deref().unwrap_or(cpu()));
    assert_eq!(Refused::Size.to_string(), "no tree or log has this size");
}

#[test]
fn several_entries_of_a_log() -> Result<(), paxidore::LogError> {
    let mut log = Log::new();
    let size = log.append(&ENTRIES)?;
    let root = log.root(size)?;
    for bits in 1..1usize << size {
        let indexes: Vec<usize> = (0..size).filter(|index| bits >> index & 1 == 1).collect();
        let mut given: Vec<&[u8]> = indexes.iter().map(|index| ENTRIES[*index]).collect();
        let proof = log.multi_inclusion(size, &indexes)?;
        assert!(Log::verify_multi_inclusion(
            &root, size, &indexes, &given, &proof
        )?);
        given[0] = b"another";
        assert!(!Log::verify_multi_inclusion(
            &root, size, &indexes, &given, &proof
        )?);
        given.pop();
        let fewer = Log::verify_multi_inclusion(&root, size, &indexes, &given, &proof);
        assert_eq!(fewer, Err(Refused::Count));
    }
    let refused = |size: usize, indexes: &[usize]| {
        log.multi_inclusion(size, indexes)
            .err()
            .map(|it| it.to_string())
    };
    assert_eq!(refused(size, &[1, 0]), Some(Refused::Index.to_string()));
    assert_eq!(refused(size, &[]), Some(Refused::Index.to_string()));
    assert_eq!(refused(size, &[size]), Some(Refused::Index.to_string()));
    assert_eq!(refused(size + 1, &[0]), Some(Refused::Size.to_string()));
    Ok(())
}
