//! Frames of the Model 2000T: "Command: 04h, 50h, 02h, code, counts, 03h, check. Answer: 01h, 50h, 02h, code, fields, 03h,
//! check. The check is the exclusive or of all bytes before it."

use crate::error_class::ErrorClass;

/// The codes of the table.
#[derive(Clone, Copy, Debug, PartialEq, Eq)]
pub enum Code {
    Purge,
    PayUpper,
    Status,
    PayLower,
    PayBoth,
    TestUpper,
    TestLower,
}

impl Code {
    pub const ALL: [Code; 7] =
        [Code::Purge, Code::PayUpper, Code::Status, Code::PayLower, Code::PayBoth, Code::TestUpper, Code::TestLower];

    pub fn byte(self) -> u8 {
        match self {
            Code::Purge => 0x44,
            Code::PayUpper => 0x45,
            Code::Status => 0x46,
            Code::PayLower => 0x55,
            Code::PayBoth => 0x56,
            Code::TestUpper => 0x76,
            Code::TestLower => 0x77,
        }
    }

    /// The code that a number is, if it stands in the table.
    #[inline]
    pub fn of(number: u32) -> Option<Code> {
        match number {
            0x44 => Some(Code::Purge),
            0x45 => Some(Code::PayUpper),
            0x46 => Some(Code::Status),
            0x55 => Some(Code::PayLower),
            0x56 => Some(Code::PayBoth),
            0x76 => Some(Code::TestUpper),
            0x77 => Some(Code::TestLower),
            _ => None,
        }
    }

    /// Whether a command with this code pays.
    #[inline]
    pub fn pays(self) -> bool {
        matches!(self, Code::PayUpper | Code::PayLower | Code::PayBoth)
    }

    /// The column "Answer bytes".
    #[inline]
    pub fn answer_length(self) -> usize {
        match self {
            Code::Purge => 7,
            Code::Status => 10,
            Code::PayUpper | Code::PayLower | Code::TestUpper | Code::TestLower => 14,
            Code::PayBoth => 21,
        }
    }

    /// Where the error byte of an answer stands.
    pub fn error_at(self) -> usize {
        match self {
            Code::Purge => 4,
            Code::Status => 5,
            Code::PayUpper | Code::PayLower | Code::TestUpper | Code::TestLower => 8,
            Code::PayBoth => 12,
        }
    }
}

/// The longest answer.
pub const ANSWER: usize = 21;

/// A code with the counts asked; 0 is "not given".
#[derive(Clone, Copy, Debug, PartialEq, Eq)]
pub struct Command {
    pub code: Code,
    pub upper: u32,
    pub lower: u32,
}

impl Command {
    /// The column "Counts asked": "1 to 60" where a count belongs, and none where it does not.
    #[inline]
    pub fn is_sendable(self) -> bool {
        let asked = |n: u32| (1..=60).contains(&n);
        match self.code {
            Code::PayUpper => asked(self.upper) && self.lower == 0,
            Code::PayLower => asked(self.lower) && self.upper == 0,
            Code::PayBoth => asked(self.upper) && asked(self.lower),
            _ => self.upper == 0 && self.lower == 0,
        }
    }

    /// Writes the frame of a command that can be sent at the start of the room, which is long enough, and says how long it is.
    pub fn write_to(self, room: &mut [u8]) -> usize {
        room[..4].copy_from_slice(&[OPENING, 0x50, 0x02, self.code.byte()]);
        let mut length = 4;
        for count in [self.upper, self.lower] {
            if count != 0 {
                room[length..length + 2].copy_from_slice(&digits(count as u8));
                length += 2;
            }
        }
        room[length] = 0x03;
        room[length + 1] = check(&room[..=length]);
        length + 2
    }
}

/// What a command begins with.
pub const OPENING: u8 = 0x04;

/// What a good answer says beside its error, as far as anybody asks here.
#[derive(Clone, Copy, Debug, PartialEq, Eq)]
pub enum Answer {
    Purged,
    Status,
    PaidUpper(Payment),
    PaidLower(Payment),
    PaidBoth(Payment, Payment),
    TestedUpper { rejects: u32 },
    TestedLower { rejects: u32 },
}

#[derive(Clone, Copy, Debug, PartialEq, Eq)]
pub struct Payment {
    pub exit: u32,
    pub rejects: u32,
}

/// Why an answer is refused.
#[derive(Clone, Copy, Debug, PartialEq, Eq)]
pub enum Fault {
    Length,
    Opening,
    Code,
    Closing,
    Check,
    Field,
}

impl Fault {
    pub fn number(self) -> u8 {
        match self {
            Fault::Length => 11,
            Fault::Opening => 12,
            Fault::Code => 13,
            Fault::Closing => 14,
            Fault::Check => 15,
            Fault::Field => 16,
        }
    }
}

/// "The check is the exclusive or of all bytes before it."
#[inline]
pub fn check(bytes: &[u8]) -> u8 {
    bytes.iter().fold(0, |sum, byte| sum ^ byte)
}

/// "Counts are two ASCII digits, tens first."
fn digits(count: u8) -> [u8; 2] {
    [b'0' + count / 10, b'0' + count % 10]
}

/// The count that two bytes are, if they are digits and it is at most `most`.
#[inline]
fn count(bytes: &[u8], most: u32) -> Result<u32, Fault> {
    let [tens, ones] = [bytes[0].wrapping_sub(b'0'), bytes[1].wrapping_sub(b'0')];
    let count = u32::from(tens) * 10 + u32::from(ones);
    if tens > 9 || ones > 9 || count > most {
        return Err(Fault::Field);
    }
    Ok(count)
}

#[inline]
fn within(byte: u8, low: u8, high: u8) -> Result<(), Fault> {
    if (low..=high).contains(&byte) {
        Ok(())
    } else {
        Err(Fault::Field)
    }
}

/// "The error byte may be 30h to 7Fh. .. An unlisted code is no reason to refuse the answer."
fn error(byte: u8) -> Result<ErrorClass, Fault> {
    within(byte, 0x30, 0x7F)?;
    Ok(ErrorClass::of(byte))
}

fn state(byte: u8) -> Result<(), Fault> {
    within(byte, 0x30, 0x31)
}

/// "CHK count, EXIT count (each 0 to 69)": the EXIT count of the two.
#[inline]
fn exit(bytes: &[u8]) -> Result<u32, Fault> {
    count(bytes, 69)?;
    count(&bytes[2..], 69)
}

/// "Dispenser frames are tested thus: under 6 bytes, 11; opening, 12; code, 13; length for that code, 11; 14; 15; 16." A good
/// answer comes with the class of its error.
pub fn read_answer(frame: &[u8]) -> Result<(Answer, ErrorClass), Fault> {
    let length = frame.len();
    if length < 6 {
        return Err(Fault::Length);
    }
    if frame[..3] != [0x01, 0x50, 0x02] {
        return Err(Fault::Opening);
    }
    let code = Code::of(u32::from(frame[3])).ok_or(Fault::Code)?;
    if length != code.answer_length() {
        return Err(Fault::Length);
    }
    if frame[length - 2] != 0x03 {
        return Err(Fault::Closing);
    }
    if frame[length - 1] != check(&frame[..length - 1]) {
        return Err(Fault::Check);
    }
    read_fields(code, &frame[4..length - 2])
}

/// Everything that is wrong with a full answer to the code, in the order of the tests. Any other code is wrong.
pub fn faults(code: Code, frame: &[u8]) -> Vec<Fault> {
    let last = frame.len() - 1;
    let right = [
        (Fault::Opening, frame[..3] == [0x01, 0x50, 0x02]),
        (Fault::Code, frame[3] == code.byte()),
        (Fault::Closing, frame[last - 1] == 0x03),
        (Fault::Check, frame[last] == check(&frame[..last])),
        (Fault::Field, read_fields(code, &frame[4..last - 1]).is_ok()),
    ];
    right.into_iter().filter(|(_, right)| !right).map(|(fault, _)| fault).collect()
}

#[inline]
fn read_fields(code: Code, fields: &[u8]) -> Result<(Answer, ErrorClass), Fault> {
    Ok(match code {
        Code::Purge => (Answer::Purged, error(fields[0])?),
        Code::Status => {
            within(fields[0], 0x30, 0x30)?;
            let error = error(fields[1])?;
            within(fields[2], 0x80, 0xFF)?;
            (Answer::Status, error)
        }
        Code::PayUpper | Code::PayLower => {
            let exit = exit(fields)?;
            let error = error(fields[4])?;
            state(fields[5])?;
            let rejects = count(&fields[6..], 99)?;
            let payment = Payment { exit, rejects };
            (if code == Code::PayUpper { Answer::PaidUpper(payment) } else { Answer::PaidLower(payment) }, error)
        }
        Code::PayBoth => {
            let (upper, lower) = (exit(fields)?, exit(&fields[4..])?);
            let error = error(fields[8])?;
            state(fields[9])?;
            state(fields[10])?;
            let (upper_rejects, lower_rejects) = (count(&fields[11..], 99)?, count(&fields[13..], 99)?);
            let upper = Payment { exit: upper, rejects: upper_rejects };
            let lower = Payment { exit: lower, rejects: lower_rejects };
            (Answer::PaidBoth(upper, lower), error)
        }
        Code::TestUpper | Code::TestLower => {
            count(fields, 29)?;
            within(fields[2], 0x30, 0x30)?;
            within(fields[3], 0x30, 0x30)?;
            let error = error(fields[4])?;
            state(fields[5])?;
            let rejects = count(&fields[6..], 99)?;
            let upper = code == Code::TestUpper;
            (if upper { Answer::TestedUpper { rejects } } else { Answer::TestedLower { rejects } }, error)
        }
    })
}

/// 03h and the check, after what a frame holds before them.
fn closed(mut frame: Vec<u8>) -> Vec<u8> {
    frame.push(0x03);
    frame.push(check(&frame));
    frame
}

/// What a dispenser says of one cassette.
#[derive(Clone, Copy, Debug)]
pub struct Counted {
    pub chk: u8,
    pub exit: u8,
    pub state: u8,
    pub rejects: u8,
}

/// The answer that a dispenser gives, whether or not its fields are in range: counts are under 100. The sensors of a status
/// show the states.
pub fn answer(code: Code, upper: Counted, lower: Counted, error: u8) -> Vec<u8> {
    let mut frame = vec![0x01, 0x50, 0x02, code.byte()];
    match code {
        Code::Purge => frame.push(error),
        Code::Status => return status(error, [0x80 | upper.state, lower.state]),
        Code::PayBoth => {
            for count in [upper.chk, upper.exit, lower.chk, lower.exit] {
                frame.extend(digits(count));
            }
            frame.extend([error, upper.state, lower.state]);
            frame.extend(digits(upper.rejects));
            frame.extend(digits(lower.rejects));
        }
        Code::PayUpper | Code::PayLower | Code::TestUpper | Code::TestLower => {
            let one = if matches!(code, Code::PayUpper | Code::TestUpper) { upper } else { lower };
            let test = matches!(code, Code::TestUpper | Code::TestLower);
            frame.extend(digits(one.chk));
            frame.extend(digits(if test { 0 } else { one.exit }));
            frame.extend([error, one.state]);
            frame.extend(digits(one.rejects));
        }
    }
    closed(frame)
}

/// The answer to a status, with any sensor bytes.
pub fn status(error: u8, [sensor_0, sensor_1]: [u8; 2]) -> Vec<u8> {
    closed(vec![0x01, 0x50, 0x02, Code::Status.byte(), 0x30, error, sensor_0, sensor_1])
}

#[cfg(test)]
mod tests {
    use super::*;

    #[test]
    fn every_command_has_its_bytes() {
        let written = |code, upper, lower| {
            let mut room = [0xEE; 16];
            let length = Command { code, upper, lower }.write_to(&mut room);
            assert!(room[length..].iter().all(|&byte| byte == 0xEE));
            room[..length].to_vec()
        };
        assert_eq!(written(Code::Purge, 0, 0), [0x04, 0x50, 0x02, 0x44, 0x03, 0x11]);
        assert_eq!(written(Code::PayUpper, 10, 0), [0x04, 0x50, 0x02, 0x45, 0x31, 0x30, 0x03, 0x11]);
        assert_eq!(written(Code::Status, 0, 0), [0x04, 0x50, 0x02, 0x46, 0x03, 0x13]);
        assert_eq!(written(Code::PayLower, 0, 15), [0x04, 0x50, 0x02, 0x55, 0x31, 0x35, 0x03, 0x04]);
        let both = [0x04, 0x50, 0x02, 0x56, 0x31, 0x35, 0x31, 0x35, 0x03, 0x03];
        assert_eq!(written(Code::PayBoth, 15, 15), both);
        assert_eq!(written(Code::TestUpper, 0, 0), [0x04, 0x50, 0x02, 0x76, 0x03, 0x23]);
        assert_eq!(written(Code::TestLower, 0, 0), [0x04, 0x50, 0x02, 0x77, 0x03, 0x22]);
    }

    #[test]
    fn counts_0_and_61_refused_1_and_60_taken() {
        let sendable = |code, upper, lower| Command { code, upper, lower }.is_sendable();
        for (count, taken) in [(0, false), (1, true), (60, true), (61, false), (266, false), (u32::MAX, false)] {
            assert_eq!(sendable(Code::PayUpper, count, 0), taken, "{count}");
            assert_eq!(sendable(Code::PayLower, 0, count), taken, "{count}");
            assert_eq!(sendable(Code::PayBoth, count, 1), taken, "{count}");
            assert_eq!(sendable(Code::PayBoth, 1, count), taken, "{count}");
        }
        assert!(!sendable(Code::PayUpper, 10, 5));
        assert!(!sendable(Code::PayLower, 5, 10));
        assert!(!sendable(Code::Status, 1, 0));
        assert!(!sendable(Code::TestUpper, 0, 1));
    }

    #[test]
    fn a_ten_note_answer_ends_in_15h() {
        let bytes = [0x01, 0x50, 0x02, 0x45, 0x31, 0x30, 0x31, 0x30, 0x30, 0x30, 0x30, 0x30, 0x03, 0x15];
        let paid = Answer::PaidUpper(Payment { exit: 10, rejects: 0 });
        assert_eq!(read_answer(&bytes), Ok((paid, ErrorClass::Fine)));
    }

    const PLAIN: Counted = Counted { chk: 10, exit: 9, state: 0x30, rejects: 2 };

    #[test]
    fn every_answer_has_its_length_and_is_read() {
        for code in Code::ALL {
            let bytes = answer(code, PLAIN, PLAIN, 0x30);
            assert_eq!(bytes.len(), code.answer_length());
            assert!(read_answer(&bytes).is_ok(), "{code:?}");
        }
    }

    #[test]
    fn error_2f_refused_30_and_7f_read() {
        for (error, read) in [(0x2F, false), (0x30, true), (0x39, true), (0x7F, true), (0x80, false)] {
            for code in Code::ALL {
                assert_eq!(read_answer(&answer(code, PLAIN, PLAIN, error)).is_ok(), read, "{code:?} {error:02X}");
            }
        }
    }

    #[test]
    fn sensor_0_has_its_top_bit_and_sensor_1_is_any() {
        for byte in 0..=255 {
            assert_eq!(read_answer(&status(0x30, [byte, 0x00])).is_ok(), byte >= 0x80, "{byte:02X}");
            let read = read_answer(&status(0x4C, [0x80, byte]));
            assert_eq!(read, Ok((Answer::Status, ErrorClass::Jam)), "{byte:02X}");
        }
    }

    #[test]
    fn an_error_is_read_where_it_stands_and_its_class_is_handed_up() {
        for error in 0x30..=0x7F {
            for code in Code::ALL {
                let bytes = answer(code, PLAIN, PLAIN, error);
                assert_eq!(bytes[code.error_at()], error);
                let class = read_answer(&bytes).map(|(_, class)| class);
                assert_eq!(class, Ok(ErrorClass::of(error)), "{code:?} {error:02X}");
            }
        }
    }

    #[test]
    fn ranges_of_the_counts() {
        let read = |chk, exit, state, rejects| {
            read_answer(&answer(Code::PayUpper, Counted { chk, exit, state, rejects }, PLAIN, 0x30))
        };
        assert!(read(69, 69, 0x31, 99).is_ok());
        assert_eq!(read(70, 0, 0x30, 0), Err(Fault::Field));
        assert_eq!(read(0, 70, 0x30, 0), Err(Fault::Field));
        assert_eq!(read(0, 0, 0x32, 0), Err(Fault::Field));
        assert_eq!(read(0, 0, 0x2F, 0), Err(Fault::Field));
        let test = |chk| read_answer(&answer(Code::TestUpper, Counted { chk, ..PLAIN }, PLAIN, 0x30));
        assert!(test(29).is_ok());
        assert_eq!(test(30), Err(Fault::Field));
    }

    #[test]
    fn the_order_of_the_tests() {
        let good = answer(Code::PayUpper, PLAIN, PLAIN, 0x30);
        assert_eq!(read_answer(&good[..5]), Err(Fault::Length));
        assert_eq!(read_answer(&[0x01, 0x51, 0x02, 0x99, 0, 0]), Err(Fault::Opening));
        assert_eq!(read_answer(&[0x01, 0x50, 0x02, 0x99, 0, 0]), Err(Fault::Code));
        assert_eq!(read_answer(&good[..13]), Err(Fault::Length));
        let mut open = good.clone();
        open[12] = 0x04;
        assert_eq!(read_answer(&open), Err(Fault::Closing));
        let mut wrong = good.clone();
        wrong[13] ^= 1;
        assert_eq!(read_answer(&wrong), Err(Fault::Check));
        // a byte that is no digit, with a check that is right
        let mut letter = good;
        letter[4] = b':';
        letter[13] = check(&letter[..13]);
        assert_eq!(read_answer(&letter), Err(Fault::Field));
    }

    #[test]
    fn of_two_faults_the_first_is_given() {
        let mut frame = answer(Code::TestUpper, PLAIN, PLAIN, 0x30);
        assert_eq!(faults(Code::TestUpper, &frame), []);
        // a fixed 30h, the check of before, 03h, the code, the opening: each hides those before it here
        let wrong =
            [(7, 0x31, Fault::Check), (12, 0x04, Fault::Closing), (3, 0x78, Fault::Code), (2, 0x03, Fault::Opening)];
        for (known, (place, byte, first)) in wrong.into_iter().enumerate() {
            frame[place] = byte;
            assert_eq!(read_answer(&frame), Err(first));
            let all = faults(Code::TestUpper, &frame);
            assert_eq!((all[0], all.len()), (first, known + 2));
        }
    }
}
