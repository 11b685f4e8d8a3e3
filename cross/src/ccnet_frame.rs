//! CCNET frames: "02h, address, length, body, two check bytes low byte first", and what an answer's body says.

/// The longest frame: "Length counts the whole frame, 6 to 255."
pub const LONGEST: usize = 255;
pub const SHORTEST: usize = 6;
pub const SYNC: u8 = 0x02;

/// Why a frame is refused.
#[derive(Clone, Copy, Debug, PartialEq, Eq)]
pub enum Fault {
    Length,
    Opening,
    Check,
}

impl Fault {
    pub fn number(self) -> u8 {
        match self {
            Fault::Length => 11,
            Fault::Opening => 12,
            Fault::Check => 15,
        }
    }
}

/// What one byte does to the check: eight turns, low bit first.
const TURNED: [u16; 256] = {
    let mut table = [0; 256];
    let mut byte = 0;
    while byte < 256 {
        let mut sum = byte as u16;
        let mut turn = 0;
        while turn < 8 {
            sum = if sum & 1 == 1 { sum >> 1 ^ 0x8408 } else { sum >> 1 };
            turn += 1;
        }
        table[byte] = sum;
        byte += 1;
    }
    table
};

/// "start 0, polynomial 8408h, low bit first, over everything before it"
#[inline]
pub fn check(bytes: &[u8]) -> u16 {
    bytes.iter().fold(0, |sum, &byte| sum >> 8 ^ TURNED[usize::from(sum as u8 ^ byte)])
}

/// Writes the frame of a body of 1 to 250 bytes at the start of the room, which is long enough, and says how long it is.
#[inline]
pub fn write_to(address: u8, body: &[u8], room: &mut [u8]) -> usize {
    let end = body.len() + 3;
    room[..3].copy_from_slice(&[SYNC, address, (end + 2) as u8]);
    room[3..end].copy_from_slice(body);
    let check = check(&room[..end]);
    room[end..end + 2].copy_from_slice(&check.to_le_bytes());
    end + 2
}

/// The frame of a body, if it has one.
pub fn write(address: u8, body: &[u8]) -> Option<Vec<u8>> {
    let length = body.len() + 5;
    if !(SHORTEST..=LONGEST).contains(&length) || !(0x01..=0x0F).contains(&address) {
        return None;
    }
    let mut frame = vec![0; length];
    write_to(address, body, &mut frame);
    Some(frame)
}

/// "CCNET frames: under 6 bytes, 11; 02h and address, 12; length byte against the bytes given, 11; 15." The body is a part of
/// the caller's own bytes.
#[inline]
pub fn body(frame: &[u8]) -> Result<&[u8], Fault> {
    let length = frame.len();
    if length < SHORTEST {
        return Err(Fault::Length);
    }
    if frame[0] != SYNC || !(0x01..=0x0F).contains(&frame[1]) {
        return Err(Fault::Opening);
    }
    if usize::from(frame[2]) != length {
        return Err(Fault::Length);
    }
    let (checked, given) = frame.split_at(length - 2);
    if given != check(checked).to_le_bytes() {
        return Err(Fault::Check);
    }
    Ok(&checked[3..])
}

/// What an answer's body is.
#[derive(Clone, Copy, Debug, PartialEq, Eq)]
pub enum Class {
    Ack,
    Nak,
    Illegal,
    /// One of 003's poll answers, other than those about a bill.
    State,
    /// 80h, 81h or 82h with a bill type.
    Bill(Place, u8),
    /// In answer to GET BILL TABLE alone: 1 to 120 bytes, whatever they would say to a POLL.
    Table,
    /// "Any other body": acknowledged, never credited.
    Unknown,
}

/// Where a bill is.
#[derive(Clone, Copy, Debug, PartialEq, Eq)]
pub enum Place {
    Escrow,
    Stacked,
    Returned,
}

/// Bill types are 0 to 23.
pub const TYPES: usize = 24;

/// "Poll answers"
#[inline]
pub fn classify(body: &[u8]) -> Class {
    match *body {
        [0x00] => Class::Ack,
        [0xFF] => Class::Nak,
        [0x30] => Class::Illegal,
        [0x10..=0x15 | 0x17..=0x1A | 0x41..=0x46] => Class::State,
        [0x1B, _] | [0x1C, 0x60..=0x6A | 0x6C] | [0x47, 0x50..=0x56 | 0x5F] => Class::State,
        [0x80, bill @ 0..=23] => Class::Bill(Place::Escrow, bill),
        [0x81, bill @ 0..=23] => Class::Bill(Place::Stacked, bill),
        [0x82, bill @ 0..=23] => Class::Bill(Place::Returned, bill),
        _ => Class::Unknown,
    }
}

#[cfg(test)]
mod tests {
    use super::*;

    #[test]
    fn the_published_check_of_nine_digits() {
        assert_eq!(check(b"123456789"), 0x2189);
    }

    #[test]
    fn a_body_has_1_to_250_bytes() {
        for (length, taken) in [(0, false), (1, true), (250, true), (251, false)] {
            assert_eq!(write(3, &vec![0x55; length]).is_some(), taken, "{length}");
        }
        let bytes = vec![0x55; 250];
        assert_eq!(body(&write(3, &bytes).unwrap()), Ok(&bytes[..]));
    }

    #[test]
    fn the_order_of_the_tests() {
        let good = write(3, &[0x81, 0x03]).unwrap();
        assert_eq!(body(&good), Ok(&[0x81, 0x03][..]));
        assert_eq!(body(&good[..5]), Err(Fault::Length));
        let with = |at: usize, byte: u8| {
            let mut frame = good.clone();
            frame[at] = byte;
            frame
        };
        assert_eq!(body(&with(0, 0x03)), Err(Fault::Opening));
        assert_eq!(body(&with(1, 0x00)), Err(Fault::Opening));
        assert_eq!(body(&with(1, 0x10)), Err(Fault::Opening));
        assert_eq!(body(&with(2, 0x08)), Err(Fault::Length));
        assert_eq!(body(&with(3, 0x80)), Err(Fault::Check));
        let mut zero = vec![0; 256];
        zero[0] = SYNC;
        zero[1] = 3;
        assert_eq!(body(&zero), Err(Fault::Length));
    }

    #[test]
    fn classes() {
        assert_eq!(classify(&[0x00]), Class::Ack);
        assert_eq!(classify(&[0xFF]), Class::Nak);
        assert_eq!(classify(&[0x30]), Class::Illegal);
        for byte in 0..=255 {
            let state = matches!(byte, 0x10..=0x15 | 0x17..=0x1A | 0x41..=0x46);
            assert_eq!(classify(&[byte]) == Class::State, state, "{byte:02X}");
        }
        assert_eq!(classify(&[0x1B, 0xFF]), Class::State);
        assert_eq!(classify(&[0x1C, 0x6A]), Class::State);
        assert_eq!(classify(&[0x1C, 0x6B]), Class::Unknown);
        assert_eq!(classify(&[0x1C, 0x6C]), Class::State);
        assert_eq!(classify(&[0x1C, 0x5F]), Class::Unknown);
        assert_eq!(classify(&[0x47, 0x56]), Class::State);
        assert_eq!(classify(&[0x47, 0x57]), Class::Unknown);
        assert_eq!(classify(&[0x47, 0x5F]), Class::State);
        assert_eq!(classify(&[0x81, 23]), Class::Bill(Place::Stacked, 23));
        assert_eq!(classify(&[0x81, 24]), Class::Unknown);
        assert_eq!(classify(&[0x80, 0]), Class::Bill(Place::Escrow, 0));
        assert_eq!(classify(&[0x82, 5]), Class::Bill(Place::Returned, 5));
        assert_eq!(classify(&[0x81]), Class::Unknown);
        assert_eq!(classify(&[0x81, 3, 0]), Class::Unknown);
        assert_eq!(classify(&[0x00, 0x00]), Class::Unknown);
    }
}
