use paxidore::{Log, LogError, Tree, Trees};
use std::thread;

// What a thread makes: a part of the tree, and a part of the log.
fn hashed(share: &[String]) -> Result<(Tree<Vec<u8>>, Log), LogError> {
    let mut part = Log::new();
    part.append(share)?;
    Ok((Tree::build(Trees::RFC6962, share)?, part))
}

fn main() -> Result<(), LogError> {
    let leaves: Vec<_> = (0..4096).map(|n| format!("leaf {n}")).collect();
    let (mut parts, mut log) = (Vec::new(), Log::new());
    thread::scope(|scope| {
        let share = |share| scope.spawn(move || hashed(share));
        let threads: Vec<_> = leaves.chunks(1024).map(share).collect();
        for thread in threads {
            let (tree, part) = thread.join().expect("no thread panics")?;
            parts.push(tree);
            log.join(&part)?;
        }
        Ok::<_, LogError>(())
    })?;
    let tree = Tree::join(Trees::RFC6962, &parts)?;
    let (one, size) = (Tree::build(Trees::RFC6962, &leaves)?, log.len());
    println!("{}", tree.memory() == one.memory());
    println!("{}", log.root(size)? == one.root()? && log.check()?);
    Ok(())
}
