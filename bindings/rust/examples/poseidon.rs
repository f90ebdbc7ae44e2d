use paxidore::poseidon::{table_bytes, ByteOrder, Table};

fn main() -> Result<(), paxidore::Refused> {
    let table = Table::<{ table_bytes(2) }>::new(2)?;
    let mut inputs = [0; 64];
    (inputs[31], inputs[63]) = (1, 2);
    for byte in table.hash(ByteOrder::BigEndian, &inputs)? {
        print!("{byte:02x}");
    }
    println!();
    Ok(())
}
