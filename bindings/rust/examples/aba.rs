//! The lattice of aba over a, b, ab and ba, and its best cut; then with b pruned; then a bad piece and a bad score.

use causeylark::{Cache, Cut, Refusal, PRUNED};

fn show(cache: &Cache) {
    for lattice in cache.lattices() {
        println!("offsets {:?}", lattice.offsets());
        for edge in lattice.edges() {
            println!("{} to {}: piece {}", edge.start, edge.end, edge.id);
        }
    }
}

fn cut(cache: &Cache, scores: &[f64]) {
    for lattice in cache.lattices() {
        match lattice.viterbi(scores) {
            Cut::Pieces { ids, score } => println!("pieces {ids:?}, score {score}"),
            Cut::EmptyWord => println!("the empty word"),
            Cut::Refused(refusal) => println!("{refusal}"),
        }
    }
}

fn main() -> Result<(), Refusal> {
    let mut cache = Cache::build(16, &[b"aba"], &[b"a", b"b", b"ab", b"ba"])?;
    show(&cache);
    cut(&cache, &[-1.0, -1.0, -2.0, -2.0]);
    cut(&cache, &[-1.0, -1.0, 2.0, -2.0]);
    println!("{} edges without b", cache.retain(&[0, PRUNED, 1, 2])?);
    show(&cache);
    if let Err(refusal) = Cache::build(16, &[b"aba"], &[b"a", b"\xff"]) {
        println!("{refusal}");
    }
    Ok(())
}
