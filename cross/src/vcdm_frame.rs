//! Frames of the four-cassette unit (Q-3 of document 02): "ID is 30h, counts are the value plus 20h". Layouts are 000's field tables.

/// How many cassettes the unit has: top, second, third, bottom.
pub const CASSETTES: usize = 4;
/// The longest command and the longest answer.
pub const COMMAND: usize = 13;
pub const ANSWER: usize = 30;

const ID: u8 = 0x30;
const TEXT: u8 = 0x02;
const END: u8 = 0x03;
/// What is added to a count.
const PLUS: u8 = 0x20;

#[derive(Clone, Copy, Debug, PartialEq, Eq)]
pub enum Code {
    Reset,
    Status,
    Purge,
    Dispense,
    LastStatus,
}

impl Code {
    pub const ALL: [Code; 5] = [Code::Reset, Code::Status, Code::Purge, Code::Dispense, Code::LastStatus];

    pub fn byte(self) -> u8 {
        match self {
            Code::Reset => 0x44,
            Code::Status => 0x50,
            Code::Purge => 0x51,
            Code::Dispense => 0x52,
            Code::LastStatus => 0x55,
        }
    }

    pub fn of(byte: u8) -> Option<Code> {
        Code::ALL.into_iter().find(|code| code.byte() == byte)
    }

    pub fn command_length(self) -> usize {
        if self == Code::Dispense {
            COMMAND
        } else {
            6
        }
    }

    pub fn answer_length(self) -> usize {
        6 + layout(self).iter().filter(|item| matches!(item, Item::Field(_))).count()
    }
}

/// "Numbers a call can answer", as far as frames meet them.
#[derive(Clone, Copy, Debug, PartialEq, Eq)]
pub enum Fault {
    Room,
    Range,
    Length,
    Opening,
    Code,
    Closing,
    Check,
    Field,
}

impl Fault {
    pub fn number(self) -> u8 {
        match self {
            Fault::Room => 1,
            Fault::Range => 2,
            Fault::Length => 11,
            Fault::Opening => 12,
            Fault::Code => 13,
            Fault::Closing => 14,
            Fault::Check => 15,
            Fault::Field => 16,
        }
    }
}

/// The check is the exclusive or of all bytes before it.
pub fn check(bytes: &[u8]) -> u8 {
    bytes.iter().fold(0, |sum, byte| sum ^ byte)
}

/// "The serial byte runs 21h to 7Fh and then begins again at 21h".
pub const FIRST_SERIAL: u8 = 0x21;
pub const LAST_SERIAL: u8 = 0x7F;

fn is_serial(byte: u8) -> bool {
    (FIRST_SERIAL..=LAST_SERIAL).contains(&byte)
}

/// "each cassette 0 to 20 and 1 to 20 notes over all four"
pub fn is_payable(counts: [u32; CASSETTES]) -> bool {
    counts.iter().all(|&count| count <= 20) && (1..=20).contains(&counts.iter().sum::<u32>())
}

/// A command, with what may be given where it has none: counts of 0, serial 0.
#[derive(Clone, Copy, Debug, PartialEq, Eq)]
pub struct Command {
    pub code: u8,
    pub counts: [u32; CASSETTES],
    pub serial: u8,
}

impl Command {
    /// "A count out of range keeps number 2, and a sum of 0 or over 20 joins it."
    pub fn is_in_range(&self, code: Code) -> bool {
        match code {
            Code::Dispense => is_payable(self.counts) && is_serial(self.serial),
            _ => self.counts == [0; CASSETTES] && self.serial == 0,
        }
    }

    /// Writes the command at the start of the room, and says how long it is. An unknown code has no length: 2; then 1; then 2.
    pub fn write(&self, room: &mut [u8]) -> Result<usize, Fault> {
        let code = Code::of(self.code).ok_or(Fault::Range)?;
        if room.len() < code.command_length() {
            return Err(Fault::Room);
        }
        if !self.is_in_range(code) {
            return Err(Fault::Range);
        }
        let mut frame = vec![0x04, ID, TEXT, self.code];
        if code == Code::Dispense {
            frame.extend(self.counts.map(|count| count as u8 + PLUS));
            frame.extend([PLUS, PLUS, self.serial]);
        }
        Ok(put(frame, room))
    }

    /// Reads a command.
    pub fn read(frame: &[u8]) -> Result<Command, Fault> {
        let (code, fields) = opened(frame, 0x04, Code::command_length)?;
        let mut command = Command { code: code.byte(), counts: [0; CASSETTES], serial: 0 };
        if let [one, two, three, four, to_one, to_two, serial] = *fields {
            let counts = [one, two, three, four];
            if (to_one, to_two) != (PLUS, PLUS) || counts.iter().any(|&count| count < PLUS) {
                return Err(Fault::Field);
            }
            command.counts = counts.map(|count| u32::from(count - PLUS));
            command.serial = serial;
        }
        if command.is_in_range(code) {
            Ok(command)
        } else {
            Err(Fault::Field)
        }
    }
}

/// Closes a frame with 03h and its check, and puts it at the room's start.
fn put(mut frame: Vec<u8>, room: &mut [u8]) -> usize {
    frame.push(END);
    frame.push(check(&frame));
    room[..frame.len()].copy_from_slice(&frame);
    frame.len()
}

/// What every frame has: "under 6 bytes, 11; opening, 12; code, 13; length for that code, 11; 14; 15". Hands back the fields.
fn opened(frame: &[u8], first: u8, length: fn(Code) -> usize) -> Result<(Code, &[u8]), Fault> {
    if frame.len() < 6 {
        return Err(Fault::Length);
    }
    if frame[..3] != [first, ID, TEXT] {
        return Err(Fault::Opening);
    }
    let code = Code::of(frame[3]).ok_or(Fault::Code)?;
    let (front, last) = frame.split_at(frame.len() - 1);
    if frame.len() != length(code) {
        Err(Fault::Length)
    } else if front[front.len() - 1] != END {
        Err(Fault::Closing)
    } else if last != [check(front)] {
        Err(Fault::Check)
    } else {
        Ok((code, &front[4..front.len() - 1]))
    }
}

/// What a field of an answer may be.
#[derive(Clone, Copy, Debug, PartialEq, Eq)]
pub enum Field {
    /// "error and reserved bytes any, kept as fields"
    Any,
    /// A value plus 20h that is kept as its byte: 20h to FFh.
    From20,
    /// A count, kept as its value: "Answer counts are any byte from 20h".
    Count,
    /// A cassette's name: 31h to 34h.
    Name,
    /// 21h to 7Fh.
    Serial,
    /// 20h to 7Fh: "by SENSOR DIAGNOSTICS" or a serial.
    LastSerial,
}

impl Field {
    /// The byte on the line, if there is one for the value.
    fn byte(self, value: u32) -> Option<u8> {
        let byte = u8::try_from(if self == Field::Count { value.checked_add(u32::from(PLUS))? } else { value }).ok()?;
        self.takes(byte).then_some(byte)
    }

    fn takes(self, byte: u8) -> bool {
        match self {
            Field::Any => true,
            Field::From20 | Field::Count => byte >= PLUS,
            Field::Name => (0x31..=0x34).contains(&byte),
            Field::Serial => is_serial(byte),
            Field::LastSerial => byte == 0x20 || is_serial(byte),
        }
    }

    fn value(self, byte: u8) -> u32 {
        u32::from(if self == Field::Count { byte - PLUS } else { byte })
    }
}

/// What an answer is told by: words, and its fields in the frame's order.
#[derive(Clone, Copy, Debug, PartialEq, Eq)]
pub enum Item {
    Word(&'static str),
    Field(Field),
}

pub const NAMES: [&str; CASSETTES] = ["top", "second", "third", "bottom"];

/// The layout of an answer, from the byte behind its code to the one before 03h.
pub fn layout(code: Code) -> Vec<Item> {
    use Item::{Field as F, Word as W};
    let error = [W("error"), F(Field::Any)];
    let mut items = Vec::new();
    match code {
        Code::Reset => items.extend(error),
        Code::Status => {
            items.extend(error);
            items.extend([W("DISP"), F(Field::Any), F(Field::Any)]);
            for name in NAMES {
                items.extend([W(name), W("STAT"), F(Field::Any), W("TYPE"), F(Field::Name)]);
                items.extend([W("OPAC"), F(Field::From20), W("LENG"), F(Field::From20)]);
            }
        }
        Code::Purge => {
            items.extend(error);
            items.extend([W("MISS"), F(Field::Any)]);
            items.extend(counted(Field::Name));
        }
        Code::Dispense => {
            items.extend(error);
            items.extend([W("serial"), F(Field::Serial)]);
            items.extend(counted(Field::Any));
        }
        Code::LastStatus => {
            items.extend([W("last"), F(Field::Any)]);
            items.extend(error);
            items.extend([W("serial"), F(Field::LastSerial)]);
            items.extend(counted(Field::Any));
        }
    }
    items
}

/// EXIT, REJECT and CASSETTE of each cassette, and the nine reserved bytes.
fn counted(name: Field) -> Vec<Item> {
    let mut items = Vec::new();
    for cassette in NAMES {
        items.extend([Item::Word(cassette), Item::Word("EXIT"), Item::Field(Field::Count)]);
        items.extend([Item::Word("REJECT"), Item::Field(Field::Count), Item::Word("CASSETTE"), Item::Field(name)]);
    }
    items.push(Item::Word("RSV"));
    items.extend([Item::Field(Field::Any); 9]);
    items
}

/// An answer: its fields in the frame's order, counts as values and every other field as its byte.
#[derive(Clone, Debug, PartialEq, Eq)]
pub struct Answer {
    pub code: Code,
    pub fields: Vec<u32>,
}

impl Answer {
    fn layout(code: Code) -> Vec<Field> {
        let field = |item| if let Item::Field(field) = item { Some(field) } else { None };
        layout(code).into_iter().filter_map(field).collect()
    }

    /// Writes the answer at the start of the room, and says how long it is: 1, then 2.
    pub fn write(&self, room: &mut [u8]) -> Result<usize, Fault> {
        if room.len() < self.code.answer_length() {
            return Err(Fault::Room);
        }
        let mut frame = vec![0x01, ID, TEXT, self.code.byte()];
        for (field, &value) in Answer::layout(self.code).into_iter().zip(&self.fields) {
            frame.push(field.byte(value).ok_or(Fault::Range)?);
        }
        Ok(put(frame, room))
    }

    pub fn read(frame: &[u8]) -> Result<Answer, Fault> {
        let (code, bytes) = opened(frame, 0x01, Code::answer_length)?;
        let layout = Answer::layout(code);
        if !layout.iter().zip(bytes).all(|(field, &byte)| field.takes(byte)) {
            return Err(Fault::Field);
        }
        Ok(Answer { code, fields: layout.iter().zip(bytes).map(|(field, &byte)| field.value(byte)).collect() })
    }

    /// Where the error stands among the fields.
    fn error_at(&self) -> usize {
        usize::from(self.code == Code::LastStatus)
    }

    pub fn error(&self) -> u32 {
        self.fields[self.error_at()]
    }

    /// The serial of a dispense.
    pub fn serial(&self) -> Option<u32> {
        (self.code == Code::Dispense).then(|| self.fields[1])
    }

    /// EXIT and REJECT of each cassette, in answers that have them.
    pub fn counts(&self) -> Option<[(u32, u32); CASSETTES]> {
        let from = match self.code {
            Code::Purge | Code::Dispense => 2,
            Code::LastStatus => 3,
            Code::Reset | Code::Status => return None,
        };
        let of = |cassette: usize| (self.fields[from + 3 * cassette], self.fields[from + 3 * cassette + 1]);
        Some([of(0), of(1), of(2), of(3)])
    }
}

#[cfg(test)]
mod tests {
    use super::*;

    fn written(command: Command) -> Result<Vec<u8>, Fault> {
        let mut room = [0xA5; 40];
        let length = command.write(&mut room)?;
        assert!(room[length..].iter().all(|&byte| byte == 0xA5));
        assert_eq!(Command::read(&room[..length]), Ok(command));
        Ok(room[..length].to_vec())
    }

    fn dispense(counts: [u32; 4], serial: u8) -> Command {
        Command { code: 0x52, counts, serial }
    }

    fn plain(code: u8) -> Command {
        Command { code, counts: [0; 4], serial: 0 }
    }

    #[test]
    fn the_commands_of_the_bench_sheet() {
        // 000 prints reset's check
        assert_eq!(written(plain(0x44)), Ok(vec![0x04, 0x30, 0x02, 0x44, 0x03, 0x71]));
        for (code, check) in [(0x50, 0x65), (0x51, 0x64), (0x55, 0x60)] {
            assert_eq!(written(plain(code)), Ok(vec![0x04, 0x30, 0x02, code, 0x03, check]));
        }
        let first = [0x04, 0x30, 0x02, 0x52, 0x21, 0x22, 0x23, 0x24, 0x20, 0x20, 0x21, 0x03, 0x42];
        assert_eq!(written(dispense([1, 2, 3, 4], 0x21)), Ok(first.to_vec()));
        for (counts, serial, check) in [
            ([20, 0, 0, 0], 0x22, 0x51),
            ([0, 0, 0, 1], 0x7F, 0x19),
            ([1, 0, 0, 0], 0x62, 0x04),
            ([0, 1, 0, 0], 0x66, 0x00),
        ] {
            assert_eq!(written(dispense(counts, serial)).unwrap().last(), Some(&check));
        }
    }

    #[test]
    fn what_a_writer_of_commands_refuses() {
        for counts in
            [[0, 0, 0, 0], [21, 0, 0, 0], [20, 1, 0, 0], [u32::MAX, 1, 1, 0], [0x8000_0000, 0x8000_0000, 1, 0]]
        {
            assert_eq!(written(dispense(counts, 0x21)), Err(Fault::Range));
        }
        for serial in [0x00, 0x20, 0x80] {
            assert_eq!(written(dispense([1, 0, 0, 0], serial)), Err(Fault::Range));
        }
        assert_eq!(written(Command { serial: 0x21, ..plain(0x50) }), Err(Fault::Range));
        assert_eq!(written(Command { counts: [1, 0, 0, 0], ..plain(0x50) }), Err(Fault::Range));
        // 000's other codes are not in the table; that comes before the room, and the room before what is out of range
        for code in [0x53, 0x58, 0x5A, 0x71, 0x74, 0x45] {
            assert_eq!(plain(code).write(&mut []), Err(Fault::Range));
        }
        assert_eq!(dispense([21, 0, 0, 0], 0).write(&mut [0; 12]), Err(Fault::Room));
        assert_eq!(plain(0x44).write(&mut [0; 5]), Err(Fault::Room));
    }

    fn answer(code: u8, fields: &[u8]) -> Vec<u8> {
        let mut frame = [&[0x01, 0x30, 0x02, code], fields, &[0x03]].concat();
        frame.push(check(&frame));
        frame
    }

    #[test]
    fn the_answers_of_the_bench_sheet() {
        let counted = [0x21, 0x20, 0x31, 0x22, 0x20, 0x32, 0x23, 0x20, 0x33, 0x24, 0x20, 0x34];
        let paid = [&[0x20, 0x21], &counted[..], &[0x20; 9]].concat();
        let last = [&[0x52, 0x20, 0x21], &counted[..], &[0x20; 9]].concat();
        let position = |name| [0x44, name, 0x60, 0x85];
        let status = [vec![0x20, 0x50, 0x40], (0x31..=0x34).flat_map(position).collect()].concat();
        for (code, fields, length, check) in [
            (0x44, vec![0x30], 7, 0x44),
            (0x44, vec![0x20], 7, 0x54),
            (0x50, status, 25, 0x54),
            (0x52, paid, 29, 0x43),
            (0x55, last, 30, 0x16),
        ] {
            let frame = answer(code, &fields);
            assert_eq!((frame.len(), frame.last()), (length, Some(&check)), "{code:02X}");
            let read = Answer::read(&frame).unwrap();
            let mut room = [0xA5; 40];
            assert_eq!(read.write(&mut room), Ok(length));
            assert_eq!(room[..length], frame);
            assert_eq!(read.write(&mut room[..length - 1]), Err(Fault::Room));
        }
        let paid = Answer::read(&answer(0x52, &[&[0x3D, 0x21], &counted[..], &[0xFF; 9]].concat())).unwrap();
        assert_eq!((paid.error(), paid.serial()), (0x3D, Some(0x21)));
        assert_eq!(paid.counts(), Some([(1, 0), (2, 0), (3, 0), (4, 0)]));
    }

    #[test]
    fn the_order_of_the_tests() {
        let good = answer(0x44, &[0x30]);
        let with = |at: usize, byte: u8| {
            let mut frame = good.clone();
            frame[at] = byte;
            frame
        };
        assert_eq!(Answer::read(&good[..5]), Err(Fault::Length));
        assert_eq!(Answer::read(&with(0, 0x04)), Err(Fault::Opening));
        assert_eq!(Answer::read(&with(1, 0x50)), Err(Fault::Opening));
        assert_eq!(Answer::read(&with(2, 0x03)), Err(Fault::Opening));
        assert_eq!(Answer::read(&with(3, 0x45)), Err(Fault::Code));
        assert_eq!(Answer::read(&with(3, 0x50)), Err(Fault::Length));
        assert_eq!(Answer::read(&with(5, 0x02)), Err(Fault::Closing));
        assert_eq!(Answer::read(&with(6, 0x00)), Err(Fault::Check));
        // six bytes of an answer have no code's length
        assert_eq!(Answer::read(&good[..6]), Err(Fault::Length));
        assert_eq!(Command::read(&good), Err(Fault::Opening));
    }

    #[test]
    fn the_limits_of_the_fields() {
        let counted = |exit, name| [&[exit, 0x20, name][..], &[0x20, 0x20, 0x34].repeat(3), &[0x00; 9]].concat();
        let dispensed = |serial, exit| answer(0x52, &[&[0x00, serial], &counted(exit, 0x00)[..]].concat());
        let last = |serial| answer(0x55, &[&[0x00, 0x00, serial], &counted(0x20, 0x00)[..]].concat());
        let purged = |exit, name| answer(0x51, &[&[0x00, 0x00], &counted(exit, name)[..]].concat());
        let status = |kind, opac| {
            answer(0x50, &[&[0, 0, 0], &[0, kind, opac, 0x20][..], &[0, 0x31, 0x20, 0xFF].repeat(3)].concat())
        };
        for (frame, good) in [
            (dispensed(0x21, 0x20), true),
            (dispensed(0x7F, 0xFF), true),
            (dispensed(0x20, 0x20), false),
            (dispensed(0x80, 0x20), false),
            (dispensed(0x21, 0x1F), false),
            (last(0x20), true),
            (last(0x7F), true),
            (last(0x1F), false),
            (last(0x80), false),
            (purged(0xFF, 0x31), true),
            (purged(0x1F, 0x31), false),
            (purged(0x20, 0x30), false),
            (purged(0x20, 0x35), false),
            (status(0x31, 0x20), true),
            (status(0x34, 0xFF), true),
            (status(0x30, 0x20), false),
            (status(0x35, 0x20), false),
            (status(0x31, 0x1F), false),
        ] {
            let wanted = if good { None } else { Some(Fault::Field) };
            assert_eq!(Answer::read(&frame).err(), wanted, "{frame:02X?}");
        }
        let exit = Answer::read(&dispensed(0x21, 0xFF)).unwrap();
        assert_eq!(exit.counts().unwrap()[0], (223, 0));
        let mut over = exit.clone();
        over.fields[2] = 224;
        assert_eq!(over.write(&mut [0; 40]), Err(Fault::Range));
    }

    #[test]
    fn a_command_that_is_read() {
        let frame = |fields: [u8; 7]| {
            let mut frame = [&[0x04, 0x30, 0x02, 0x52], &fields[..], &[0x03]].concat();
            frame.push(check(&frame));
            frame
        };
        assert_eq!(
            Command::read(&frame([0x34, 0x20, 0x20, 0x20, 0x20, 0x20, 0x21])),
            Ok(dispense([20, 0, 0, 0], 0x21))
        );
        for fields in [
            [0x35, 0x20, 0x20, 0x20, 0x20, 0x20, 0x21],
            [0x34, 0x21, 0x20, 0x20, 0x20, 0x20, 0x21],
            [0x20, 0x20, 0x20, 0x20, 0x20, 0x20, 0x21],
            [0x1F, 0x21, 0x20, 0x20, 0x20, 0x20, 0x21],
            [0x21, 0x20, 0x20, 0x20, 0x21, 0x20, 0x21],
            [0x21, 0x20, 0x20, 0x20, 0x20, 0x1F, 0x21],
            [0x21, 0x20, 0x20, 0x20, 0x20, 0x20, 0x20],
            [0x21, 0x20, 0x20, 0x20, 0x20, 0x20, 0x80],
        ] {
            assert_eq!(Command::read(&frame(fields)), Err(Fault::Field), "{fields:02X?}");
        }
    }
}
