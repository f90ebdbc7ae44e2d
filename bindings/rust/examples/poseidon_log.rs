use paxidore::poseidon::{table_bytes, Log, Table};

fn main() -> Result<(), paxidore::Refused> {
    let table = Table::<{ table_bytes(2) }>::new(2)?;
    let mut members = [[0; 32]; 3];
    (members[0][0], members[1][0], members[2][0]) = (11, 12, 13);
    let mut log = Log::new(&table);
    log.append(&members)?;
    let path = log.inclusion(3, 1)?;
    println!("{}", table.verify(&log.root(3)?, 3, 1, &members[1], &path)?);
    Ok(())
}
