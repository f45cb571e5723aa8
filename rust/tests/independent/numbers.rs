//! Numbers with their places, out of bytes or out of cells.

use purlquartz::Refusal;

pub fn refuse<T>(number: u16, place: usize) -> Result<T, Refusal> {
    Err(Refusal { number, place })
}

/// The most that three groups of seven bits hold.
pub const MOST_NUMBER: u32 = 2_097_151;

/// A number and the place that a refusal of it names.
#[derive(Clone, Copy)]
pub struct Number {
    pub value: u32,
    pub place: usize,
}

impl Number {
    /// The number if it is from `least` to `most`, or else the refusal of its place.
    pub fn within(self, fault: u16, least: u16, most: u16) -> Result<u16, Refusal> {
        match u16::try_from(self.value) {
            Ok(value) if (least..=most).contains(&value) => Ok(value),
            _ => refuse(fault, self.place),
        }
    }
}

/// Where numbers come from, one after another.
pub trait Source {
    fn next(&mut self) -> Result<Number, Refusal>;
    /// The place of the next number, or none at the end.
    fn rest(&self) -> Option<usize>;
}

pub struct Bytes<'a> {
    bytes: &'a [u8],
    offset: usize,
}

impl<'a> Bytes<'a> {
    pub fn new(bytes: &'a [u8]) -> Self {
        Bytes::from(bytes, 0)
    }

    pub fn from(bytes: &'a [u8], offset: usize) -> Self {
        Bytes { bytes, offset }
    }

    pub fn offset(&self) -> usize {
        self.offset
    }
}

impl Source for Bytes<'_> {
    fn next(&mut self) -> Result<Number, Refusal> {
        let place = self.offset;
        let mut value = 0;
        for group in 0..3 {
            let Some(&byte) = self.bytes.get(place.saturating_add(group)) else {
                return refuse(1, place);
            };
            value |= u32::from(byte & 0x7f) << (7 * group);
            if byte < 0x80 {
                let padded = group > 0 && byte == 0;
                if padded {
                    return refuse(2, place);
                }
                self.offset = place + group + 1;
                return Ok(Number { value, place });
            }
        }
        refuse(2, place)
    }

    fn rest(&self) -> Option<usize> {
        (self.offset < self.bytes.len()).then_some(self.offset)
    }
}

pub struct Cells<'a> {
    cells: &'a [u16],
    index: usize,
}

impl<'a> Cells<'a> {
    pub fn new(cells: &'a [u16]) -> Self {
        Cells { cells, index: 0 }
    }
}

impl Source for Cells<'_> {
    fn next(&mut self) -> Result<Number, Refusal> {
        let place = self.index;
        let Some(&value) = self.cells.get(place) else {
            return refuse(1, place);
        };
        self.index += 1;
        let value = value.into();
        Ok(Number { value, place })
    }

    fn rest(&self) -> Option<usize> {
        (self.index < self.cells.len()).then_some(self.index)
    }
}

/// The fewest bytes that hold the number, lowest group first.
pub fn encode(value: u32, bytes: &mut Vec<u8>) {
    let mut rest = value;
    while rest >= 0x80 {
        bytes.push(rest as u8 | 0x80);
        rest >>= 7;
    }
    bytes.push(rest as u8);
}

/// The bytes of a row of numbers.
pub fn encoded<T: Copy + Into<u32>>(values: &[T]) -> Vec<u8> {
    let mut bytes = Vec::new();
    for &value in values {
        encode(value.into(), &mut bytes);
    }
    bytes
}

/// The numbers of bytes that are well formed.
pub fn decoded(bytes: &[u8]) -> Vec<u32> {
    let mut source = Bytes::new(bytes);
    let mut values = Vec::new();
    while source.rest().is_some() {
        values.push(source.next().expect("a number").value);
    }
    values
}
