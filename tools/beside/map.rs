//! A compact sparse Merkle tree in plain Rust, with kept digests: the structure of `merkle_map::KeptMap` by hand. Prints the seconds
//! for making a map of so many drawn entries, for changes with a root after each or after so many, and for hashing pairs alone.
//!
//!     rustc -O tools/beside/map.rs -o map && ./map 1000000 200000 1 0

use std::time::Instant;

type Digest = [u8; 32];

const K: [u32; 64] = [
    0x428a2f98, 0x71374491, 0xb5c0fbcf, 0xe9b5dba5, 0x3956c25b, 0x59f111f1, 0x923f82a4, 0xab1c5ed5, 0xd807aa98, 0x12835b01,
    0x243185be, 0x550c7dc3, 0x72be5d74, 0x80deb1fe, 0x9bdc06a7, 0xc19bf174, 0xe49b69c1, 0xefbe4786, 0x0fc19dc6, 0x240ca1cc,
    0x2de92c6f, 0x4a7484aa, 0x5cb0a9dc, 0x76f988da, 0x983e5152, 0xa831c66d, 0xb00327c8, 0xbf597fc7, 0xc6e00bf3, 0xd5a79147,
    0x06ca6351, 0x14292967, 0x27b70a85, 0x2e1b2138, 0x4d2c6dfc, 0x53380d13, 0x650a7354, 0x766a0abb, 0x81c2c92e, 0x92722c85,
    0xa2bfe8a1, 0xa81a664b, 0xc24b8b70, 0xc76c51a3, 0xd192e819, 0xd6990624, 0xf40e3585, 0x106aa070, 0x19a4c116, 0x1e376c08,
    0x2748774c, 0x34b0bcb5, 0x391c0cb3, 0x4ed8aa4a, 0x5b9cca4f, 0x682e6ff3, 0x748f82ee, 0x78a5636f, 0x84c87814, 0x8cc70208,
    0x90befffa, 0xa4506ceb, 0xbef9a3f7, 0xc67178f2,
];

fn compress(state: &mut [u32; 8], block: &[u8]) {
    let mut w = [0u32; 64];
    for (i, word) in block.chunks_exact(4).enumerate() {
        w[i] = u32::from_be_bytes([word[0], word[1], word[2], word[3]]);
    }
    for i in 16..64 {
        let a = w[i - 15].rotate_right(7) ^ w[i - 15].rotate_right(18) ^ (w[i - 15] >> 3);
        let b = w[i - 2].rotate_right(17) ^ w[i - 2].rotate_right(19) ^ (w[i - 2] >> 10);
        w[i] = w[i - 16].wrapping_add(a).wrapping_add(w[i - 7]).wrapping_add(b);
    }
    let [mut a, mut b, mut c, mut d, mut e, mut f, mut g, mut h] = *state;
    for i in 0..64 {
        let s = e.rotate_right(6) ^ e.rotate_right(11) ^ e.rotate_right(25);
        let t = h.wrapping_add(s).wrapping_add((e & f) ^ (!e & g)).wrapping_add(K[i]).wrapping_add(w[i]);
        let r = a.rotate_right(2) ^ a.rotate_right(13) ^ a.rotate_right(22);
        let u = r.wrapping_add((a & b) ^ (a & c) ^ (b & c));
        (h, g, f, e, d, c, b, a) = (g, f, e, d.wrapping_add(t), c, b, a, t.wrapping_add(u));
    }
    for (x, y) in state.iter_mut().zip([a, b, c, d, e, f, g, h]) {
        *x = x.wrapping_add(y);
    }
}

fn sha256(parts: &[&[u8]]) -> Digest {
    let mut state =
        [0x6a09e667, 0xbb67ae85, 0x3c6ef372, 0xa54ff53a, 0x510e527f, 0x9b05688c, 0x1f83d9ab, 0x5be0cd19];
    let (mut block, mut at, mut bits) = ([0u8; 64], 0, 0u64);
    for part in parts {
        bits += 8 * part.len() as u64;
        for byte in *part {
            block[at] = *byte;
            at += 1;
            if at == 64 {
                compress(&mut state, &block);
                at = 0;
            }
        }
    }
    block[at] = 0x80;
    block[at + 1..].fill(0);
    if at >= 56 {
        compress(&mut state, &block);
        block = [0; 64];
    }
    block[56..].copy_from_slice(&bits.to_be_bytes());
    compress(&mut state, &block);
    let mut digest = [0; 32];
    for (bytes, word) in digest.chunks_exact_mut(4).zip(state) {
        bytes.copy_from_slice(&word.to_be_bytes());
    }
    digest
}

enum Node {
    Empty,
    Leaf { key: Digest, value: Digest },
    Fork { left: Box<Node>, right: Box<Node>, digest: Option<Digest> },
}

fn bit(key: &Digest, level: usize) -> bool {
    key[level / 8] >> (7 - level % 8) & 1 == 1
}

fn fork(left: Node, right: Node) -> Node {
    Node::Fork { left: Box::new(left), right: Box::new(right), digest: None }
}

fn apart(level: usize, a: (Digest, Digest), b: (Digest, Digest)) -> Node {
    let leaf = |entry: (Digest, Digest)| Node::Leaf { key: entry.0, value: entry.1 };
    match (bit(&a.0, level), bit(&b.0, level)) {
        (false, true) => fork(leaf(a), leaf(b)),
        (true, false) => fork(leaf(b), leaf(a)),
        (false, false) => fork(apart(level + 1, a, b), Node::Empty),
        (true, true) => fork(Node::Empty, apart(level + 1, a, b)),
    }
}

fn insert(node: &mut Node, level: usize, own: (Digest, Digest)) {
    match node {
        Node::Empty => *node = Node::Leaf { key: own.0, value: own.1 },
        Node::Leaf { key, value } if *key == own.0 => *value = own.1,
        Node::Leaf { key, value } => *node = apart(level, own, (*key, *value)),
        Node::Fork { left, right, digest } => {
            *digest = None;
            insert(if bit(&own.0, level) { right } else { left }, level + 1, own)
        }
    }
}

fn root(node: &mut Node) -> Digest {
    match node {
        Node::Empty => sha256(&[]),
        Node::Leaf { key, value } => sha256(&[&[0], key, value]),
        Node::Fork { digest: Some(digest), .. } => *digest,
        Node::Fork { left, right, digest } => {
            let own = sha256(&[&[1], &root(left), &root(right)]);
            *digest = Some(own);
            own
        }
    }
}

fn drawn(label: &[u8], number: u64) -> Digest {
    sha256(&[label, &number.to_be_bytes()])
}

fn main() {
    let words: Vec<u64> = std::env::args().skip(1).map(|word| word.parse().expect("a number")).collect();
    let (count, changes, each, pairs) = (words[0], words[1], words[2], words[3]);
    let mut map = Node::Empty;
    let start = Instant::now();
    for i in 0..count {
        insert(&mut map, 0, (drawn(b"key", i), drawn(b"value", i)));
    }
    let first = root(&mut map);
    println!("made: {:.2} s, root {:02x}{:02x}..", start.elapsed().as_secs_f64(), first[0], first[1]);
    let (start, mut sum) = (Instant::now(), 0);
    for i in 0..changes {
        insert(&mut map, 0, (drawn(b"key", i.wrapping_mul(104_729) % count), drawn(b"value", i)));
        if (i + 1) % each == 0 {
            sum ^= root(&mut map)[0];
        }
    }
    println!("changes: {:.2} s, sum {sum}", start.elapsed().as_secs_f64());
    let (start, mut digest) = (Instant::now(), first);
    for _ in 0..pairs {
        digest = sha256(&[&[1], &digest, &digest]);
    }
    println!("{pairs} pairs: {:.2} s, {:02x}..", start.elapsed().as_secs_f64(), digest[0]);
}
