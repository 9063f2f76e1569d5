//! Counts words, by the standard library's map and formatter.
use std::collections::BTreeMap;

fn main() {
    let mut counts = BTreeMap::new();
    for word in "a rose is a rose is a rose".split(' ') {
        *counts.entry(word).or_insert(0) += 1;
    }
    for (word, count) in &counts {
        println!("{word}: {count}");
    }
}
