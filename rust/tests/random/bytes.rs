//! Damage to bytes and cells.

use super::Random;
use crate::independent::book::Book;

/// The bytes with one of them changed, some lost or some added.
pub fn damaged(random: &mut Random, bytes: &[u8]) -> Vec<u8> {
    let mut bytes = bytes.to_vec();
    let at = random.below(bytes.len().max(1));
    let any = random.below(256) as u8;
    let byte = random.pick(&[0, 1, 2, 3, 4, 0x7f, 0x80, 0x81, 0xff, any]);
    match random.below(7) {
        0 => bytes.truncate(at),
        1 => bytes.push(byte),
        2 => bytes.insert(at, byte),
        3 if !bytes.is_empty() => drop(bytes.remove(at)),
        4 => drop(bytes.splice(at..at, [0x80, 0x80, byte])),
        5 if !bytes.is_empty() => pad(&mut bytes, at, random.between(1, 2)),
        _ if !bytes.is_empty() => bytes[at] = byte,
        _ => {}
    }
    bytes
}

/// Writes a number of one byte wider than it need be.
fn pad(bytes: &mut Vec<u8>, at: usize, more: usize) {
    if bytes[at] < 0x80 {
        bytes[at] |= 0x80;
        bytes.insert(at + 1, 0);
        if more == 2 {
            bytes.insert(at + 1, 0x80);
        }
    }
}

/// The numbers with one of them over 65,535. Its low 16 bits stay, which may be in range.
pub fn widened(random: &mut Random, numbers: &[u32]) -> Vec<u32> {
    let mut numbers = numbers.to_vec();
    let any = random.below(numbers.len());
    let more = random.between(1, 31) as u32;
    numbers[any] = numbers[any] % 65_536 + 65_536 * more;
    numbers
}

/// The book's cells with one, two or three of them changed, some lost or some added. Ranks are
/// few, so they are often changed on purpose.
pub fn damaged_cells(random: &mut Random, book: &Book) -> Vec<u16> {
    let mut cells = book.cells();
    if book.sizes.form == 2 && random.percent(30) {
        let ranks = &mut cells[book.first_rank()..][..book.terminals()];
        damage_rank(random, ranks);
        match random.below(3) {
            0 => return cells,
            1 => damage_rank(random, ranks),
            _ => {}
        }
    }
    damage_cells(random, &mut cells);
    cells
}

/// Makes one of T ranks T or more, or another one's, which is before it or after it.
fn damage_rank(random: &mut Random, ranks: &mut [u16]) {
    let terminals = ranks.len();
    let other = ranks[random.below(terminals)];
    let most = terminals as u16;
    ranks[random.below(terminals)] = random.pick(&[other, other, other, most, most + 1, 65_535]);
}

fn damage_cells(random: &mut Random, cells: &mut Vec<u16>) {
    let at = random.below(cells.len());
    let head = random.below(5).min(at);
    let near = cells[at].wrapping_add(random.pick(&[1, 2, 4, 65_535, 65_534]));
    let value = random.pick(&[0, 1, 2, 3, 33, 65_535, near, near]);
    match random.below(8) {
        0 => cells.truncate(at),
        1 => cells.push(value),
        2 => cells[head] = value,
        3 => cells.insert(at, value),
        4 | 5 => {
            let other = random.below(cells.len());
            cells[other] = random.pick(&[33, 258, 259, 65_535]);
            cells[at] = value;
        }
        _ => cells[at] = value,
    }
}
