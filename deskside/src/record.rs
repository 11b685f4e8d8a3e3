//! The records of a recording, which are the events that `host` is given: docs/RECORDING.md.

use crate::side::Side;

fn record(kind: u8, numbers: &[u32]) -> Vec<u8> {
    let mut bytes = vec![kind];
    numbers.iter().for_each(|&number| push(&mut bytes, number));
    bytes
}

/// Groups of seven bits, lowest first, the top bit set on all but the last.
fn push(bytes: &mut Vec<u8>, mut number: u32) {
    while number >= 0x80 {
        bytes.push(number as u8 | 0x80);
        number >>= 7;
    }
    bytes.push(number as u8);
}

/// An order to the dispenser.
pub fn request(code: u8, upper: u32, lower: u32) -> Vec<u8> {
    record(0, &[code.into(), upper, lower])
}

/// A byte that came.
pub fn byte(side: Side, byte: u8) -> Vec<u8> {
    let kind = match side {
        Side::Dispenser => 1,
        Side::Validator => 3,
    };
    record(kind, &[byte.into()])
}

/// Milliseconds that passed.
pub fn tick(ms: u32) -> Vec<u8> {
    record(2, &[ms])
}

/// The order that asks the validator what happened.
pub const POLL: u8 = 0x33;

/// An order to the validator.
pub fn ask(code: u8) -> Vec<u8> {
    record(4, &[code.into()])
}

/// The operator's clear.
pub fn clear() -> Vec<u8> {
    record(5, &[])
}

#[cfg(test)]
mod tests {
    use super::*;

    #[test]
    fn the_whole_case_of_document_01() {
        assert_eq!(tick(1_000), [0x02, 0xE8, 0x07]);
        assert_eq!(tick(200), [0x02, 0xC8, 0x01]);
        assert_eq!(request(0x45, 10, 0), [0x00, 0x45, 0x0A, 0x00]);
        assert_eq!(byte(Side::Dispenser, 0x06), [0x01, 0x06]);
        assert_eq!(byte(Side::Validator, 0xFF), [0x03, 0xFF, 0x01]);
        assert_eq!(ask(0x33), [0x04, 0x33]);
        assert_eq!(clear(), [0x05]);
        assert_eq!(tick(u32::MAX), [0x02, 0xFF, 0xFF, 0xFF, 0xFF, 0x0F]);
    }
}
