//! All strings of some letters.

/// Each string of up to so many of these, shorter ones first.
pub fn strings<T: Clone>(choices: &[T], longest: usize) -> Vec<Vec<T>> {
    let mut all = vec![Vec::new()];
    let mut begun = 0;
    for _ in 0..longest {
        let ended = all.len();
        for place in begun..ended {
            for choice in choices {
                let mut longer = all[place].clone();
                longer.push(choice.clone());
                all.push(longer);
            }
        }
        begun = ended;
    }
    all
}
