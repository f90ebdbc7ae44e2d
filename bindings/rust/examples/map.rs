use paxidore::{Map, Refused};

fn main() -> Result<(), Refused> {
    let (ann, bob) = ([1; 32], [2; 32]);
    let mut map = Map::new();
    map.insert(ann, [10; 32])?;
    let (root, has, has_not) = (*map.root(), map.prove(&ann)?, map.prove(&bob)?);
    println!("{}", Map::verify(&root, &ann, Some(&[10; 32]), &has)?);
    println!("{}", Map::verify(&root, &bob, None, &has_not)?);
    Ok(())
}
