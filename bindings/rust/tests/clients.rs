//! What there is without `std`: checks of proofs, hashes and commitments, against values that hashlib gives.

use paxidore::{
    blake2s, blake2s_commit, blake2s_opens, cpu, sha256, version, Digest, Log, Refused, Trees,
};

fn bytes<const N: usize>(text: &str) -> [u8; N] {
    assert_eq!(text.len(), 2 * N);
    std::array::from_fn(|i| u8::from_str_radix(&text[2 * i..2 * i + 2], 16).expect("two digits"))
}

// The hashes of RFC 6962 above ann, bob, cat, dan: of the first two entries, of cat, of dan, and the root.
const AB: &str = "be32cb631ae299cefdcd5126ebf52a65f1c3d469e53726d879d3893522e9f552";
const CAT: &str = "0cebbf2a7ae18046f803abaa112c67e96375e0d741626f2ebe905bcadfd5f1ca";
const DAN: &str = "3f2b84ee5f84ac383cc4dc50bf887b679f07943f7e6d159e5dba4968d52046e9";
const ROOT: &str = "2ffda61b8c2428ed7acb4ab8072d1c4f174d0afa14130c73c55c355bf63e4f9e";
// Of the first three entries, and of ann and bob alone.
const ROOT_OF_THREE: &str = "af8e97a965c346ec1d771c09d261ee22a8c4f83bf53896ff00edba241d7a9a47";
const ANN: &str = "5c1fd9322071981551347ca3c2e2c089f319c14e9fe3556016ad78bc9db08e88";
const BOB: &str = "680e7793d646bb7dfa049f6dd432ee3cb38655faa80be01384454efa4bbbb1eb";

fn joined<const N: usize>(parts: &[&[u8]]) -> [u8; N] {
    let mut whole = [0; N];
    let mut at = 0;
    for part in parts {
        whole[at..at + part.len()].copy_from_slice(part);
        at += part.len();
    }
    assert_eq!(at, N);
    whole
}

fn word(number: u64) -> [u8; 8] {
    number.to_le_bytes()
}

#[test]
fn trees() {
    let (root, ab, dan): (Digest, Digest, Digest) = (bytes(ROOT), bytes(AB), bytes(DAN));
    let path: [u8; 80] = joined(&[&dan, &word(1), &ab, &word(2)]);
    let of = |leaf: &[u8]| Trees::RFC6962.verify(&root, 4, 2, leaf, &path);
    assert_eq!((of(b"cat"), of(b"dog")), (Ok(true), Ok(false)));
    let wide = Trees::RFC6962.verify(&root, 8, 2, b"cat", &path);
    assert_eq!(wide, Err(Refused::Height));
    let proof: [u8; 120] = joined(&[
        &word(1),
        &dan,
        &word(1),
        &word(0),
        &word(1),
        &word(1),
        &ab,
        &word(1),
        &word(2),
    ]);
    let flat = |indexes: &[usize], leaves: &[u8], lengths: &[usize]| {
        Trees::RFC6962.multi_verify_flat(&root, 4, indexes, leaves, lengths, &proof)
    };
    assert_eq!(flat(&[2], b"cat", &[3]), Ok(true));
    assert_eq!(flat(&[2], b"dog", &[3]), Ok(false));
    assert_eq!(flat(&[2], b"cat", &[2]), Err(Refused::Lengths));
    assert_eq!(flat(&[2], b"cat", &[2, 1]), Err(Refused::Count));
    assert_eq!(flat(&[3], b"cat", &[3]), Err(Refused::Invalid));
}

#[test]
fn logs() {
    let (old, new): (Digest, Digest) = (bytes(ROOT_OF_THREE), bytes(ROOT));
    let (ann, bob, cat, dan, ab): (Digest, Digest, Digest, Digest, Digest) =
        (bytes(ANN), bytes(BOB), bytes(CAT), bytes(DAN), bytes(AB));
    let path: [u8; 64] = joined(&[&ann, &cat]);
    let of = |entry: &[u8]| Log::verify_inclusion(&old, 3, 1, entry, &path);
    assert_eq!((of(b"bob"), of(b"dog")), (Ok(true), Ok(false)));
    let by_digest = Log::verify_inclusion_digest(&old, 3, 1, &bob, &path);
    assert_eq!(by_digest, Ok(true));
    let all = |indexes: &[usize], entries: &[u8], lengths: &[usize]| {
        Log::verify_multi_inclusion_flat(&old, 3, indexes, entries, lengths, &bob)
    };
    assert_eq!(all(&[0, 2], b"anncat", &[3, 3]), Ok(true));
    assert_eq!(all(&[0, 2], b"anndog", &[3, 3]), Ok(false));
    assert_eq!(all(&[0, 1], b"annbob", &[3, 3]), Ok(false));
    assert_eq!(all(&[0, 2], b"anncat", &[3, 2]), Err(Refused::Lengths));
    assert_eq!(all(&[0, 2], b"anncat", &[6]), Err(Refused::Count));
    assert_eq!(all(&[2, 0], b"catann", &[3, 3]), Err(Refused::Index));
    assert_eq!(all(&[], b"", &[]), Err(Refused::Index));
    assert_eq!(all(&[1], b"bob", &[3]), Err(Refused::Truncated));
    let proof: [u8; 96] = joined(&[&cat, &dan, &ab]);
    let after = |old: &Digest| Log::verify_consistency(old, 3, &new, 4, &proof);
    assert_eq!((after(&old), after(&new)), (Ok(true), Ok(false)));
    let short = Log::verify_consistency(&old, 3, &new, 4, &proof[1..]);
    assert_eq!(short, Err(Refused::Truncated));
}

#[test]
fn hashes() {
    let nonce = std::array::from_fn(|i| i as u8);
    let commitment = blake2s_commit(b"abc", &nonce);
    assert_eq!(
        commitment,
        bytes("e0f7bc605522dd045ccd1954b126f0900edac1411fe3a003d999438ba30b6434")
    );
    assert!(blake2s_opens(&commitment, b"abc", &nonce));
    assert!(!blake2s_opens(&commitment, b"abd", &nonce));
    assert_eq!(
        blake2s(b"abc"),
        bytes("508c5e8c327c14e2e1a72ba34eeb452f37458b209ed63a294d999b4c86675982")
    );
    assert_eq!(
        sha256(b"abc"),
        bytes("ba7816bf8f01cfea414140de5dae2223b00361a396177a9cb410ff61f20015ad")
    );
    assert!(version().starts_with(char::is_numeric));
    assert!(cpu().is_ascii() && !cpu().is_empty());
}
