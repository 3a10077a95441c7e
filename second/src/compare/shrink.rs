//! Makes a list small while something about it remains: drops halves, quarters, and so on down to
//! single items. The number of tries and the time are bounded.

use std::time::{Duration, Instant};

pub struct Bound {
    pub tries: usize,
    begin: Instant,
}

const MOST_TRIES: usize = 400;
const LONGEST: Duration = Duration::from_secs(180);

impl Bound {
    pub fn new() -> Bound {
        Bound { tries: 0, begin: Instant::now() }
    }

    /// Counts one try more; false when there are no more to have.
    pub fn try_more(&mut self) -> bool {
        self.tries += 1;
        self.tries <= MOST_TRIES && self.begin.elapsed() < LONGEST
    }
}

pub fn shrink<T: Clone>(
    mut items: Vec<T>,
    bound: &mut Bound,
    mut remains: impl FnMut(&[T]) -> bool,
) -> Vec<T> {
    let mut size = items.len().div_ceil(2);
    while size > 0 && !items.is_empty() {
        let before = items.len();
        let mut at = 0;
        while at < items.len() {
            if !bound.try_more() {
                return items;
            }
            let rest = [&items[..at], &items[(at + size).min(items.len())..]].concat();
            match remains(&rest) {
                true => items = rest,
                false => at += size,
            }
        }
        // At single items, go round again while it helps.
        size = match size {
            1 if items.len() < before => 1,
            _ => size / 2,
        };
    }
    items
}
