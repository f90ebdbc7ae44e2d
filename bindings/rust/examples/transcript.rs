//! Who proves and who checks absorb the same message, and squeeze the same challenge.

use paxidore::{ready_parameters, Field, Refused, Transcript};

fn main() -> Result<(), Refused> {
    let parameters = ready_parameters(Field::Bls12_381Fr, 2)?;
    let mut proving = Transcript::new(Field::Bls12_381Fr, &parameters)?;
    let mut checking = proving.clone();
    let mut challenges = [[0; 32]; 2];
    for (transcript, challenge) in [&mut proving, &mut checking]
        .into_iter()
        .zip(&mut challenges)
    {
        transcript.absorb_bytes(b"a commitment")?;
        transcript.squeeze(challenge)?;
    }
    println!("{}", challenges[0] == challenges[1]);
    Ok(())
}
