use paxidore::{Refused, Trees};

fn main() -> Result<(), Refused> {
    let leaves = ["ann", "bob", "cat", "dan"];
    let root = Trees::RFC6962.root(&leaves)?;
    let path = Trees::RFC6962.path(&leaves, 2)?;
    println!(
        "{}",
        Trees::RFC6962.verify(&root, leaves.len(), 2, b"cat", &path)?
    );
    Ok(())
}
