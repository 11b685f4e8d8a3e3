//! Numbers of a recording: "groups of seven bits, lowest first, top bit set on all but the last; shortest form, at most five
//! groups, below 4,294,967,296".

/// Why no number could be read.
#[derive(Clone, Copy, Debug, PartialEq, Eq)]
pub enum Fault {
    /// Not in shortest form, too large, or a fifth group that asks for a sixth: 21.
    Bad,
    /// The bytes end inside the number: 22.
    Cut,
}

const GROUPS: usize = 5;
const MORE: u8 = 0x80;
/// What a fifth group may hold: 35 bits would be three too many.
const FIFTH: u8 = 0x0F;

/// Reads the number at `at`, and says where the next byte stands.
#[inline]
pub fn read(bytes: &[u8], at: usize) -> Result<(u32, usize), Fault> {
    match bytes.get(at) {
        None => Err(Fault::Cut),
        Some(&only) if only & MORE == 0 => Ok((u32::from(only), at + 1)),
        Some(&first) => read_on(bytes, at, u32::from(first & !MORE)),
    }
}

/// The number at `at`, whose first group asks for more.
#[inline]
fn read_on(bytes: &[u8], at: usize, first: u32) -> Result<(u32, usize), Fault> {
    let mut value = first;
    for k in 1..GROUPS {
        let Some(&byte) = bytes.get(at + k) else { return Err(Fault::Cut) };
        let last = k == GROUPS - 1;
        if byte & MORE == 0 {
            let too_large = last && byte > FIFTH;
            let too_long = byte == 0;
            if too_large || too_long {
                return Err(Fault::Bad);
            }
            return Ok((value | u32::from(byte) << (7 * k), at + k + 1));
        }
        if !last {
            value |= u32::from(byte & !MORE) << (7 * k);
        }
    }
    Err(Fault::Bad)
}

/// How many groups the number has in its shortest form.
pub fn groups(value: u32) -> usize {
    (1..GROUPS).find(|k| value >> (7 * k) == 0).unwrap_or(GROUPS)
}

/// Appends the number in its shortest form.
pub fn write(mut value: u32, bytes: &mut Vec<u8>) {
    while value >= u32::from(MORE) {
        bytes.push(value as u8 | MORE);
        value >>= 7;
    }
    bytes.push(value as u8);
}

#[cfg(test)]
mod tests {
    use super::*;

    fn written(value: u32) -> Vec<u8> {
        let mut bytes = Vec::new();
        write(value, &mut bytes);
        bytes
    }

    #[test]
    fn a_thousand_is_e8_07() {
        assert_eq!(written(1_000), [0xE8, 0x07]);
        assert_eq!(read(&[0xE8, 0x07], 0), Ok((1_000, 2)));
    }

    #[test]
    fn reading_undoes_writing_at_every_length() {
        for value in [0, 1, 127, 128, 16_383, 16_384, 2_097_151, 2_097_152, 268_435_455, 268_435_456, u32::MAX] {
            let bytes = written(value);
            assert_eq!(read(&bytes, 0), Ok((value, bytes.len())));
            assert_eq!(groups(value), bytes.len());
        }
    }

    #[test]
    fn the_fifth_group_ends_the_number() {
        assert_eq!(read(&[0xFF, 0xFF, 0xFF, 0xFF, 0x0F], 0), Ok((u32::MAX, 5)));
        assert_eq!(read(&[0xFF, 0xFF, 0xFF, 0xFF, 0x10], 0), Err(Fault::Bad));
        // at once: no sixth byte is looked for
        assert_eq!(read(&[0x80, 0x80, 0x80, 0x80, 0x80], 0), Err(Fault::Bad));
        assert_eq!(read(&[0x80, 0x80, 0x80, 0x80], 0), Err(Fault::Cut));
    }

    #[test]
    fn only_the_shortest_form_is_taken() {
        assert_eq!(read(&[0x80, 0x00], 0), Err(Fault::Bad));
        assert_eq!(read(&[0xFF, 0x80, 0x00], 0), Err(Fault::Bad));
        assert_eq!(read(&[0x80, 0x80, 0x80, 0x80, 0x00], 0), Err(Fault::Bad));
        assert_eq!(read(&[0x00], 0), Ok((0, 1)));
    }

    #[test]
    fn the_end_inside_a_number_cuts_it() {
        assert_eq!(read(&[], 0), Err(Fault::Cut));
        assert_eq!(read(&[0xE8], 0), Err(Fault::Cut));
        assert_eq!(read(&[0x05], 1), Err(Fault::Cut));
    }
}
