//! The seeds of a run.

const SEEDS: [u64; 4] = [1, 2, 3, 4];

/// The seeds that the words name, or the fixed ones where there is no word.
pub fn seeds(words: impl Iterator<Item = String>) -> Result<Vec<u64>, String> {
    let named: Result<Vec<u64>, String> = words
        .map(|word| word.parse().map_err(|_| format!("not a seed: {word}")))
        .collect();
    Ok(match named?.as_slice() {
        [] => SEEDS.to_vec(),
        named => named.to_vec(),
    })
}
