//! The validator's bill table (Q-1 of document 02): "24 words of five bytes, as 003 gives them".

use crate::ccnet_frame::TYPES;

/// The bytes of a word, and of a table.
pub const WORD: usize = 5;
pub const LENGTH: usize = TYPES * WORD;

/// The table that was last read; all zero before any, so that it has no bill.
#[derive(Clone, Copy, Debug, PartialEq, Eq)]
pub struct Table([u8; LENGTH]);

/// "room lent .. is under .. the frame's .. own length (plain writer)": number 1.
#[derive(Clone, Copy, Debug, PartialEq, Eq)]
pub struct NoRoom;

impl Table {
    pub fn fresh() -> Table {
        Table([0; LENGTH])
    }

    /// "unsent bytes count as zero"; "A body over 120 bytes is unknown": it is no table.
    pub fn read(body: &[u8]) -> Option<Table> {
        let mut bytes = [0; LENGTH];
        bytes.get_mut(..body.len())?.copy_from_slice(body);
        Some(Table(bytes))
    }

    pub fn bytes(&self) -> &[u8; LENGTH] {
        &self.0
    }

    /// "writing (all 120 bytes, so that a shorter body comes back filled up with zeros)"
    pub fn write(&self, room: &mut [u8]) -> Result<usize, NoRoom> {
        room.get_mut(..LENGTH).ok_or(NoRoom)?.copy_from_slice(&self.0);
        Ok(LENGTH)
    }

    /// The word of a bill type, 0 to 23.
    pub fn word(&self, kind: usize) -> [u8; WORD] {
        let mut word = [0; WORD];
        word.copy_from_slice(&self.0[kind * WORD..][..WORD]);
        word
    }
}

impl Default for Table {
    fn default() -> Table {
        Table::fresh()
    }
}

/// What a word says.
#[derive(Clone, Copy, Debug, PartialEq, Eq)]
pub enum Meaning {
    /// "an all-zero word means no such bill"
    NoSuchBill,
    Unusable,
    Value(Money),
}

/// An amount: a whole number, the letters, and how many of its digits are decimals.
#[derive(Clone, Copy, Debug, PartialEq, Eq)]
pub struct Money {
    pub whole: u64,
    pub letters: [u8; 3],
    pub decimals: u8,
}

impl std::fmt::Display for Money {
    fn fmt(&self, f: &mut std::fmt::Formatter) -> std::fmt::Result {
        let [one, two, three] = self.letters.map(char::from);
        write!(f, "{} {one}{two}{three} {}", self.whole, self.decimals)
    }
}

/// "Zeros or places above 9 .. make the word unusable".
pub const MOST: u8 = 9;

/// "top bit clear means that many zeros, top bit set means that many decimal places"
pub const PLACES: u8 = 0x80;

pub fn meaning(word: [u8; WORD]) -> Meaning {
    let [first, letters @ .., last] = word;
    let many = last & !PLACES;
    if word == [0; WORD] {
        Meaning::NoSuchBill
    } else if many > MOST || !letters.iter().all(u8::is_ascii_uppercase) {
        Meaning::Unusable
    } else if last < PLACES {
        Meaning::Value(Money { whole: u64::from(first) * 10_u64.pow(u32::from(many)), letters, decimals: 0 })
    } else {
        Meaning::Value(Money { whole: u64::from(first), letters, decimals: many })
    }
}

/// A count that no session has: number 2.
#[derive(Clone, Copy, Debug, PartialEq, Eq)]
pub struct TooMany;

/// The most bills that are totalled: a session takes no more commands.
pub const BILLS: u32 = 1_000_000;

/// "an exact total for each type": "count times value with its number of decimals". A word without a value has none.
pub fn total(word: [u8; WORD], bills: u32) -> Result<Option<Money>, TooMany> {
    if bills > BILLS {
        return Err(TooMany);
    }
    Ok(match meaning(word) {
        Meaning::Value(each) => Some(Money { whole: u64::from(bills) * each.whole, ..each }),
        Meaning::NoSuchBill | Meaning::Unusable => None,
    })
}

#[cfg(test)]
mod tests {
    use super::*;

    fn word(first: u8, letters: &str, last: u8) -> [u8; WORD] {
        let letters = letters.as_bytes();
        [first, letters[0], letters[1], letters[2], last]
    }

    fn says(word: [u8; WORD]) -> String {
        match meaning(word) {
            Meaning::NoSuchBill => "none".to_string(),
            Meaning::Unusable => "unusable".to_string(),
            Meaning::Value(money) => money.to_string(),
        }
    }

    #[test]
    fn the_words_of_the_request() {
        assert_eq!(says(word(0x19, "NLC", 0x82)), "25 NLC 2");
        assert_eq!(says(word(0x02, "USA", 0x01)), "20 USA 0");
        assert_eq!(total(word(0x19, "NLC", 0x82), 100).unwrap().unwrap().to_string(), "2500 NLC 2");
    }

    #[test]
    fn zeros_and_places() {
        assert_eq!(says(word(1, "ITL", 0x03)), "1000 ITL 0");
        assert_eq!(says(word(255, "ITL", 0x09)), "255000000000 ITL 0");
        assert_eq!(says(word(255, "ITL", 0x89)), "255 ITL 9");
        assert_eq!(says(word(7, "ITL", 0x00)), "7 ITL 0");
        assert_eq!(says(word(7, "ITL", 0x80)), "7 ITL 0");
        assert_eq!(says(word(0, "USA", 0x00)), "0 USA 0");
        assert_eq!(says(word(0, "USA", 0x85)), "0 USA 5");
        for last in [0x0A, 0x7F, 0x8A, 0xFF] {
            assert_eq!(says(word(1, "ITL", last)), "unusable", "{last:02X}");
        }
    }

    #[test]
    fn letters_are_capitals() {
        for place in 1..=3 {
            for byte in 0..=255 {
                let mut some = word(1, "MMM", 0);
                some[place] = byte;
                assert_eq!(says(some) == "unusable", !(0x41..=0x5A).contains(&byte), "{byte:02X}");
            }
        }
    }

    #[test]
    fn only_five_zeros_are_no_bill() {
        assert_eq!(says([0; WORD]), "none");
        for place in 0..WORD {
            let mut some = [0; WORD];
            some[place] = 1;
            assert_eq!(says(some), "unusable");
        }
    }

    #[test]
    fn the_largest_total_and_a_count_that_is_refused() {
        let largest = total(word(255, "ITL", 0x09), 1_000_000).unwrap().unwrap();
        assert_eq!(largest.whole, 255_000_000_000_000_000);
        assert_eq!(total(word(255, "ITL", 0x09), 1_000_001), Err(TooMany));
        assert_eq!(total([0; WORD], 1_000_001), Err(TooMany));
        assert_eq!(total([0; WORD], 1_000_000), Ok(None));
        assert_eq!(total(word(1, "ITL", 0x0A), 5), Ok(None));
    }

    #[test]
    fn a_table_is_read_and_written() {
        let all: Vec<u8> = (1..=120).collect();
        for length in [0, 1, 4, 5, 119, 120] {
            let table = Table::read(&all[..length]).unwrap();
            assert_eq!(table.bytes()[..length], all[..length]);
            assert!(table.bytes()[length..].iter().all(|&byte| byte == 0));
            let mut room = [0xA5; 130];
            assert_eq!(table.write(&mut room), Ok(120));
            assert_eq!((&room[..120], &room[120..]), (&table.bytes()[..], &[0xA5; 10][..]));
        }
        assert_eq!(Table::read(&[0; 121]), None);
        let mut room = [0xA5; 119];
        assert_eq!(Table::fresh().write(&mut room), Err(NoRoom));
        assert_eq!(room, [0xA5; 119]);
        assert_eq!(Table::read(&all).unwrap().word(23), [116, 117, 118, 119, 120]);
    }
}
