//! The lines of `tools/vectors --lines`, which the variable `PAXIDORE_VECTORS` names a file of.

use paxidore::poseidon::{table_bytes, ByteOrder, Table};
use paxidore::{blake2s, ed25519, sha256, Digest, Log, Trees};

fn bytes(word: &str) -> Vec<u8> {
    let word = if word == "-" { "" } else { word };
    (0..word.len())
        .step_by(2)
        .map(|at| u8::from_str_radix(&word[at..at + 2], 16).unwrap())
        .collect()
}

fn digest(word: &str) -> Digest {
    bytes(word).try_into().unwrap()
}

fn number(word: &str) -> usize {
    word.parse().unwrap()
}

#[test]
fn lines() {
    let Ok(place) = std::env::var("PAXIDORE_VECTORS") else {
        return;
    };
    let two = Table::<{ table_bytes(2) }>::new(2).unwrap();
    let mut count = 0;
    for line in std::fs::read_to_string(place).unwrap().lines() {
        let words: Vec<&str> = line.split(' ').collect();
        let is_right = match words[..] {
            ["verify", hashing, root, size, index, leaf, path] => {
                let trees = match hashing {
                    "plain" => Trees::SHA256,
                    _ => Trees::RFC6962,
                };
                trees.verify(
                    &digest(root),
                    number(size),
                    number(index),
                    &bytes(leaf),
                    &bytes(path),
                ) == Ok(true)
            }
            ["inclusion", root, size, index, entry, path] => {
                let (size, index) = (number(size), number(index));
                Log::verify_inclusion(&digest(root), size, index, &bytes(entry), &bytes(path))
                    == Ok(true)
            }
            ["consistency", old_size, old_root, size, root, proof] => {
                let (old_size, size) = (number(old_size), number(size));
                let (old_root, root) = (digest(old_root), digest(root));
                Log::verify_consistency(&old_root, old_size, &root, size, &bytes(proof)) == Ok(true)
            }
            ["sha256", input, output] => sha256(&bytes(input)) == digest(output),
            ["poseidon", inputs, output] => {
                let inputs = bytes(inputs);
                Table::<{ table_bytes(16) }>::new(inputs.len() / 32)
                    .and_then(|table| table.hash(ByteOrder::BigEndian, &inputs))
                    == Ok(digest(output))
            }
            ["lean-root", elements, root] => {
                let elements: Vec<Digest> = bytes(elements)
                    .chunks(32)
                    .map(|one| one.try_into().unwrap())
                    .collect();
                two.root(&elements) == Ok(digest(root))
            }
            ["lean-path", root, size, index, element, path] => {
                let (size, index) = (size.parse().unwrap(), index.parse().unwrap());
                two.verify(&digest(root), size, index, &digest(element), &bytes(path)) == Ok(true)
            }
            ["blake2s", input, output] => blake2s(&bytes(input)) == digest(output),
            ["ed25519-sign", seed, message, key, signature] => {
                let (seed, message) = (digest(seed), bytes(message));
                ed25519::public_key(&seed) == digest(key)
                    && ed25519::sign(&seed, &message)[..] == bytes(signature)
            }
            ["ed25519-verify", key, message, signature, valid] => {
                let signature = bytes(signature).try_into().unwrap();
                ed25519::verify(&digest(key), &bytes(message), &signature) == (valid == "yes")
            }
            _ => false,
        };
        assert!(is_right, "{line}");
        count += 1;
    }
    assert!(count > 300);
}
