//! CCNET frames past 255 bytes (02, Q-11): "length byte 0, and the true length, high byte first, after the code, after the
//! subcommand, or at once where there is no code".

use crate::ccnet_frame::{check, SHORTEST, SYNC};

/// "True lengths 256 to 65,535 are allowed"
pub const LEAST: usize = 256;
pub const MOST: usize = 65_535;

/// "The caller says which of the three forms is meant."
#[derive(Clone, Copy, Debug, PartialEq, Eq)]
pub enum Form {
    Code,
    Subcommand,
    Once,
}

impl Form {
    pub const ALL: [Form; 3] = [Form::Code, Form::Subcommand, Form::Once];

    /// How many bytes stand between the length byte and the true length.
    pub fn lead(self) -> usize {
        match self {
            Form::Code => 1,
            Form::Subcommand => 2,
            Form::Once => 0,
        }
    }
}

/// Why a frame is not written.
#[derive(Clone, Copy, Debug, PartialEq, Eq)]
pub enum Unwritten {
    TooShort,
    TooLong,
    Room,
    Address,
}

impl Unwritten {
    pub fn number(self) -> u8 {
        match self {
            Unwritten::Room => 1,
            Unwritten::TooShort | Unwritten::TooLong | Unwritten::Address => 2,
        }
    }
}

/// Why a frame is not read.
#[derive(Clone, Copy, Debug, PartialEq, Eq)]
pub enum Unread {
    UnderSix,
    Opening,
    LengthByte,
    /// There are too few bytes for the true length.
    Cut,
    /// The true length is under 256.
    Small,
    /// The true length is not that of the bytes given.
    Other,
    Check,
}

impl Unread {
    pub fn number(self) -> u8 {
        match self {
            Unread::UnderSix | Unread::LengthByte | Unread::Cut | Unread::Small | Unread::Other => 11,
            Unread::Opening => 12,
            Unread::Check => 15,
        }
    }
}

/// What a good frame holds.
#[derive(Clone, Copy, Debug, PartialEq, Eq)]
pub struct Read<'a> {
    pub address: u8,
    /// The code and the subcommand, as far as the form has them.
    pub lead: &'a [u8],
    pub data: &'a [u8],
}

fn is_address(address: u8) -> bool {
    (0x01..=0x0F).contains(&address)
}

/// The frame with as many of the lead bytes as the form has, where the room holds so many bytes. A length that no wide frame has
/// comes first, then the room, then the address.
pub fn write(form: Form, address: u8, lead: &[u8], data: &[u8], room: usize) -> Result<Vec<u8>, Unwritten> {
    let mut frame = vec![SYNC, address, 0];
    frame.extend(&lead[..form.lead()]);
    let length = frame.len() + 2 + data.len() + 2;
    if length < LEAST {
        return Err(Unwritten::TooShort);
    }
    if length > MOST {
        return Err(Unwritten::TooLong);
    }
    if room < length {
        return Err(Unwritten::Room);
    }
    if !is_address(address) {
        return Err(Unwritten::Address);
    }
    frame.extend((length as u16).to_be_bytes());
    frame.extend(data);
    frame.extend(check(&frame).to_le_bytes());
    Ok(frame)
}

/// The frame read in that form, its parts being the caller's own bytes.
pub fn read(form: Form, frame: &[u8]) -> Result<Read<'_>, Unread> {
    if frame.len() < SHORTEST {
        return Err(Unread::UnderSix);
    }
    if frame[0] != SYNC || !is_address(frame[1]) {
        return Err(Unread::Opening);
    }
    if frame[2] != 0 {
        return Err(Unread::LengthByte);
    }
    let (lead, rest) = frame[3..].split_at(form.lead());
    let [high, low, rest @ ..] = rest else {
        return Err(Unread::Cut);
    };
    let length = usize::from(u16::from_be_bytes([*high, *low]));
    if length < LEAST {
        return Err(Unread::Small);
    }
    if length != frame.len() {
        return Err(Unread::Other);
    }
    let (checked, given) = frame.split_at(length - 2);
    if given != check(checked).to_le_bytes() {
        return Err(Unread::Check);
    }
    Ok(Read { address: frame[1], lead, data: &rest[..rest.len() - 2] })
}

#[cfg(test)]
mod tests {
    use super::*;
    use crate::ccnet_frame;

    #[test]
    fn lengths() {
        for form in Form::ALL {
            let data = vec![0x41; MOST + 1];
            for (length, wanted) in [
                (255, Err(Unwritten::TooShort)),
                (256, Ok(256)),
                (257, Ok(257)),
                (65_535, Ok(65_535)),
                (65_536, Err(Unwritten::TooLong)),
            ] {
                let written = write(form, 3, &[0x60, 0x01], &data[..length - 7 - form.lead()], MOST + 1);
                assert_eq!(written.map(|frame| frame.len()), wanted, "{form:?} {length}");
            }
        }
    }

    #[test]
    fn what_was_written_is_read_and_is_no_narrow_frame() {
        for form in Form::ALL {
            let data: Vec<u8> = (0..=255).cycle().take(1_000).collect();
            let frame = write(form, 0x0F, &[0x60, 0x01], &data, 2_000).unwrap();
            let read = read(form, &frame).unwrap();
            assert_eq!((read.address, read.lead, read.data), (0x0F, &[0x60, 0x01][..form.lead()], &data[..]));
            assert_eq!(ccnet_frame::body(&frame), Err(ccnet_frame::Fault::Length));
        }
    }

    #[test]
    fn the_statistics_of_003() {
        let frame = write(Form::Once, 3, &[], &[0; 4_356], 65_535).unwrap();
        assert_eq!(frame[..5], [0x02, 0x03, 0x00, 0x11, 0x0B]);
    }

    #[test]
    fn good_in_every_form() {
        let frame = write(Form::Once, 3, &[], &[1; 250], 257).unwrap();
        for form in Form::ALL {
            assert!(read(form, &frame).is_ok(), "{form:?}");
        }
    }
}
