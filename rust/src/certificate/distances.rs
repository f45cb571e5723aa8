//! The least lengths from the start to all pairs.

use super::crossings::Crossings;
use super::tables::Tables;
use super::words::{Way, Words};
use std::collections::VecDeque;

/// By head. A head whose way became shorter is gone on from again.
pub fn distances(tables: &Tables, crossings: &Crossings, words: &mut Words) -> Vec<Way> {
    let mut ways = vec![Way::NONE; tables.heads()];
    ways[..tables.terminals].fill(Way::NOTHING);
    let mut open: VecDeque<usize> = (0..tables.terminals).collect();
    while let Some(head) = open.pop_front() {
        let way = ways[head];
        for (to, rest) in crossings.transitions(tables, head) {
            if words.lower(&mut ways[to], way, rest) {
                open.push_back(to);
            }
        }
    }
    ways
}
