//! The weakest places of a small network: its value, a most balanced minimum cut, and the nodes of the cactus of all of them.
//! In bindings/rust: `cargo run --example weakest`.
fn main() -> Result<(), mincut::Error> {
    // two triangles, joined by two edges
    let u = [0, 1, 2, 3, 4, 5, 0, 3];
    let v = [1, 2, 0, 4, 5, 3, 3, 1];
    let w = [3, 3, 3, 3, 3, 3, 1, 1];
    let cactus = mincut::cactus(6, &u, &v, &w)?;
    println!("value {}, {} minimum cuts", cactus.value(), mincut::count(6, &u, &v, &w)?);
    let best = mincut::balanced(6, &u, &v, &w, &[])?;
    let inside: Vec<usize> = (0..6).filter(|i| best.in_side[*i]).collect();
    println!("most balanced, with {} on the lighter side: {inside:?}", best.balance);
    for (i, node) in cactus.nodes().enumerate() {
        println!("node {i}: {node:?}");
    }
    for bridge in cactus.bridges() {
        println!("bridge {} - {}", bridge.upper, bridge.lower);
    }
    for cycle in cactus.cycles() {
        println!("cycle {cycle:?}");
    }
    Ok(())
}
