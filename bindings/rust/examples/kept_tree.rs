use paxidore::{Refused, Tree, Trees};

fn main() -> Result<(), Refused> {
    let mut tree = Tree::build(Trees::RFC6962, &["ann", "bob", "cat", "dan"])?;
    tree.set(3, b"eve")?;
    let (root, path) = (tree.root()?, tree.path(3)?);
    println!(
        "{}",
        Trees::RFC6962.verify(&root, tree.len(), 3, b"eve", &path)?
    );
    Ok(())
}
