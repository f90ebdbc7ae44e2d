use paxidore::{Log, LogError};

fn main() -> Result<(), LogError> {
    let mut log = Log::open(std::env::args().nth(1).expect("a path"))?;
    let size = log.append(&["ann", "bob", "cat"])?;
    let root = log.root(size)?;
    let path = log.inclusion(size, 1)?;
    let grown = log.append(&["dan"])?;
    let proof = log.consistency(size, grown)?;
    println!("{}", Log::verify_inclusion(&root, size, 1, b"bob", &path)?);
    let new_root = log.root(grown)?;
    println!(
        "{}",
        Log::verify_consistency(&root, size, &new_root, grown, &proof)?
    );
    Ok(())
}
