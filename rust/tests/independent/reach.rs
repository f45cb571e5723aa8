//! Least lengths from the start to every head.

use super::summaries::{sum, Summaries, OVER};
use purlquartz::{LONG, UNREACHED};

/// By head: the least cost from the start state with any terminal next, or none. The start of a
/// book is state 0.
pub fn distances(summaries: &Summaries, start: usize) -> Vec<Option<u16>> {
    let mut leaving = vec![Vec::new(); summaries.heads()];
    for edge in &summaries.edges {
        leaving[edge.from as usize].push((edge.to as usize, edge.cost));
    }
    let mut distances = vec![None; summaries.heads()];
    let mut due = vec![Vec::new(); OVER + 1];
    due[0].extend((0..summaries.book.terminals()).map(|terminal| summaries.head(start, terminal)));
    for level in 0..=OVER {
        while let Some(head) = due[level].pop() {
            if distances[head].is_some() {
                continue;
            }
            distances[head] = Some(level as u16);
            for &(to, cost) in &leaving[head] {
                if distances[to].is_none() {
                    due[sum(level as u16, cost)].push(to);
                }
            }
        }
    }
    distances
}

/// The distances as the map writes them.
pub fn map_cell(distance: Option<u16>) -> u16 {
    match distance {
        None => UNREACHED,
        Some(cost) if usize::from(cost) == OVER => LONG,
        Some(cost) => cost,
    }
}
