//! Signed checkpoints and receipts.

use paxidore::notes::{
    open_checkpoint, open_receipt, sign_checkpoint, verifier_text, Checkpoint, Shown,
};
use paxidore::{ed25519, Refused};

const NAME: &str = "example.com/log";
const SEED: ed25519::Seed = [7; 32];

fn policy() -> Result<String, Refused> {
    let key = verifier_text(NAME, &ed25519::public_key(&SEED))?;
    Ok(format!("log {key}\nquorum none\n"))
}

#[test]
fn what_is_signed_is_opened() -> Result<(), Refused> {
    let (policy, root) = (policy()?, [5; 32]);
    for size in [0, 1, usize::MAX] {
        let note = sign_checkpoint(&SEED, NAME, NAME, &root, size)?;
        let stated = open_checkpoint(&policy, 0, "", &note)?;
        assert_eq!(stated, Checkpoint { size, root });
        assert_eq!(
            open_checkpoint(&policy, 0, "another log", &note),
            Err(Refused::OtherOrigin)
        );
        let mut damaged = note.clone();
        damaged[0] ^= 1;
        assert_eq!(
            open_checkpoint(&policy, 0, "", &damaged),
            Err(Refused::BadSignature)
        );
        assert_eq!(
            open_checkpoint("log x\nquorum none\n", 0, "", &note),
            Err(Refused::NoPolicy)
        );
        assert_eq!(
            open_checkpoint(&policy, 0, "", &note[..9]),
            Err(Refused::Invalid)
        );
        let other = sign_checkpoint(&[8; 32], NAME, NAME, &root, size)?;
        assert_eq!(
            open_checkpoint(&policy, 0, "", &other),
            Err(Refused::NotSigned)
        );
    }
    assert_eq!(
        sign_checkpoint(&SEED, "a name", NAME, &root, 5),
        Err(Refused::Invalid)
    );
    assert_eq!(
        verifier_text("a+b", &ed25519::public_key(&SEED)),
        Err(Refused::Invalid)
    );
    Ok(())
}

#[test]
fn a_receipt_shows_its_entry() -> Result<(), Refused> {
    let log = {
        let mut log = paxidore::Log::new();
        for entry in ["ann", "bob"] {
            log.append(&[entry]).map_err(|_| Refused::Size)?;
        }
        log
    };
    let root = log.root(2).map_err(|_| Refused::Size)?;
    let note = sign_checkpoint(&SEED, NAME, NAME, &root, 2)?;
    let mut receipt = b"c2sp.org/tlog-proof@v1\nindex 0\n".to_vec();
    // the digest of the other entry, SHA-256 of a zero byte and `bob`, in Base64
    receipt.extend_from_slice(b"aA53k9ZGu336BJ9t1DLuPLOGVfqoC+AThEVO+ku7ses=\n\n");
    receipt.extend_from_slice(&note);
    let shown = open_receipt(&policy()?, 0, "", b"ann", &receipt)?;
    assert_eq!(
        shown,
        Some(Shown {
            index: 0,
            size: 2,
            root
        })
    );
    assert_eq!(open_receipt(&policy()?, 0, "", b"bob", &receipt)?, None);
    assert_eq!(
        open_receipt(&policy()?, 0, "", b"ann", &receipt[1..]),
        Err(Refused::Invalid)
    );
    Ok(())
}
