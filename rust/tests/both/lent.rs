//! Lent memory with guards on both sides.

use crate::random::Random;
use std::fmt::Debug;

/// Cells before and after the lent part, which no call may touch.
const GUARD: usize = 24;

#[derive(Clone)]
pub struct Lent<T> {
    memory: Vec<T>,
}

impl<T: Copy + From<u8>> Lent<T> {
    /// So many cells of random content.
    pub fn random(random: &mut Random, count: usize) -> Lent<T> {
        let cell = |_| T::from(random.below(256) as u8);
        let memory = (0..count + 2 * GUARD).map(cell).collect();
        Lent { memory }
    }

    /// A copy of a slice.
    pub fn holding(content: &[T]) -> Lent<T> {
        let mut memory = vec![T::from(0xa5); content.len() + 2 * GUARD];
        memory[GUARD..GUARD + content.len()].copy_from_slice(content);
        Lent { memory }
    }

    pub fn part(&self) -> &[T] {
        &self.memory[GUARD..self.memory.len() - GUARD]
    }

    pub fn part_mut(&mut self) -> &mut [T] {
        let end = self.memory.len() - GUARD;
        &mut self.memory[GUARD..end]
    }

    /// For a test of the comparison itself: a write just past the lent part.
    pub fn harm_guard(&mut self, value: T) {
        let end = self.memory.len() - GUARD;
        self.memory[end] = value;
    }
}

/// Memory that can say where it differs from other memory of the same shape.
pub trait Memory {
    fn difference(&self, expected: &Self) -> Option<String>;
}

impl<T: Debug + PartialEq> Memory for Lent<T> {
    fn difference(&self, expected: &Self) -> Option<String> {
        let mut pairs = self.memory.iter().zip(&expected.memory);
        let at = pairs.position(|(cell, expected)| cell != expected)?;
        let (cell, expected) = (&self.memory[at], &expected.memory[at]);
        let place = at as isize - GUARD as isize;
        Some(format!("cell {place} is {cell:?}, not {expected:?}"))
    }
}

impl<A: Memory, B: Memory> Memory for (A, B) {
    fn difference(&self, expected: &Self) -> Option<String> {
        let first = self.0.difference(&expected.0);
        first.or_else(|| self.1.difference(&expected.1))
    }
}
