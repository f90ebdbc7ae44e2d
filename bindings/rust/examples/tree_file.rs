//! A tree that is kept in a file. Each change writes a new file, which takes the place of the old one once it is synced.
use paxidore::{Tree, Trees};
use std::fs::{self, File};
use std::io::{self, Write};
use std::path::Path;

fn store(path: &Path, digests: &[u8]) -> io::Result<()> {
    let new = path.with_extension("new");
    let mut file = File::create(&new)?;
    file.write_all(digests)?;
    file.sync_all()?;
    fs::rename(&new, path)?;
    File::open(path.parent().unwrap_or(Path::new(".")))?.sync_all()
}

fn main() -> Result<(), Box<dyn std::error::Error>> {
    let path = std::env::temp_dir().join(format!("paxidore-{}.tree", std::process::id()));
    let tree = Tree::build(Trees::RFC6962, &["ann", "bob", "cat", "dan"])?;
    store(&path, tree.memory())?;

    let mut tree = Tree::over(Trees::RFC6962, fs::read(&path)?)?;
    tree.set(3, b"eve")?;
    store(&path, tree.memory())?;

    let again = Tree::over(Trees::RFC6962, fs::read(&path)?)?;
    println!("{}", again.root()? == tree.root()? && again.check()?);
    fs::remove_file(&path)?;
    Ok(())
}
