//! Transcripts. The numbers were computed in plain Python.

use paxidore::{ready_parameters, Field, Refused, Transcript};

// Two full rounds and a partial one of a state of two elements, fifth powers.
fn parameters() -> Vec<u8> {
    let words: [u64; 22] = [
        2, 1, 5, 3, 2, 5, 6, 2, 7, 8, 2, 9, 10, 2, 2, 1, 2, 2, 3, 4, 1, 1,
    ];
    words.iter().flat_map(|word| word.to_le_bytes()).collect()
}

fn elements(numbers: [u64; 2]) -> Vec<u8> {
    numbers
        .iter()
        .flat_map(|number| number.to_le_bytes())
        .collect()
}

#[test]
fn a_transcript_is_that_of_python() -> Result<(), Refused> {
    let parameters = parameters();
    let mut transcript = Transcript::new(Field::Goldilocks, &parameters)?;
    transcript.absorb(&elements([11, 12]))?;
    transcript.absorb_bytes(b"a message")?;
    let mut copy = transcript.clone();
    let mut squeezed = [0; 16];
    transcript.squeeze(&mut squeezed)?;
    assert_eq!(
        squeezed[..],
        elements([5518910787108351795, 16081646306617943921])[..]
    );
    let mut bytes = [0; 9];
    transcript.squeeze_bytes(&mut bytes)?;
    assert_eq!(
        bytes,
        [0xb3, 0x05, 0x99, 0x98, 0x39, 0x91, 0x76, 0x5a, 0x6e]
    );
    copy.squeeze(&mut squeezed[..8])?;
    copy.squeeze(&mut squeezed[8..])?;
    assert_eq!(
        squeezed[..],
        elements([5518910787108351795, 16081646306617943921])[..]
    );
    Ok(())
}

// What arkworks' sponge over BLS12-381 gives first after 0, 1, 2.
#[test]
fn ready_parameters_are_arkworks() -> Result<(), Refused> {
    let parameters = ready_parameters(Field::Bls12_381Fr, 2)?;
    let mut transcript = Transcript::new(Field::Bls12_381Fr, &parameters)?;
    let mut elements = [0; 96];
    (elements[32], elements[64]) = (1, 2);
    transcript.absorb(&elements)?;
    let mut out = [0; 32];
    transcript.squeeze(&mut out)?;
    assert_eq!(out[..4], [0x6c, 0x78, 0x7b, 0x3f]);
    assert_eq!(out[28..], [0x56, 0xcf, 0x69, 0x59]);
    assert_eq!(ready_parameters(Field::BabyBear, 2), Err(Refused::Invalid));
    assert_eq!(ready_parameters(Field::Bn254Fr, 9), Err(Refused::Count));
    Ok(())
}

// Clones share the parameters, which were read once, and each goes on alone.
#[test]
fn clones_go_on_alone() -> Result<(), Refused> {
    let parameters = ready_parameters(Field::Bn254Fr, 3)?;
    let mut first = Transcript::new(Field::Bn254Fr, &parameters)?;
    first.absorb_bytes(b"a message")?;
    let mut second = first.clone();
    first.absorb_bytes(b"one more")?;
    let mut whole = Transcript::new(Field::Bn254Fr, &parameters)?;
    whole.absorb_bytes(b"a message")?;
    let mut out = [[0; 64]; 3];
    for (transcript, out) in [&mut first, &mut second, &mut whole]
        .into_iter()
        .zip(&mut out)
    {
        transcript.squeeze(out)?;
    }
    assert_eq!(out[1], out[2]);
    assert_ne!(out[0], out[1]);
    Ok(())
}

#[test]
fn what_is_no_transcript_is_refused() -> Result<(), Refused> {
    let mut parameters = parameters();
    let mut transcript = Transcript::new(Field::Goldilocks, &parameters)?;
    assert_eq!(transcript.absorb(&[0; 7]), Err(Refused::Truncated));
    assert_eq!(transcript.absorb(&[255; 8]), Err(Refused::Invalid));
    assert_eq!(transcript.squeeze(&mut [0; 9]), Err(Refused::Truncated));
    assert!(Transcript::new(Field::Goldilocks, &parameters[1..]).is_err());
    assert!(Transcript::new(Field::Bn254Fr, &parameters).is_err());
    parameters.push(0);
    assert_eq!(
        Transcript::new(Field::Goldilocks, &parameters).err(),
        Some(Refused::Invalid)
    );
    Ok(())
}
