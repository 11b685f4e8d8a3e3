//! "A pretend dispenser" (Q-14 of document 02): the device end of the Model 2000T line.

use crate::dispenser::{is_tick, ACK, NAK};
use crate::dispenser_frame::{check, Code, Command, OPENING};

/// Why a call is refused.
#[derive(Clone, Copy, Debug, PartialEq, Eq)]
pub enum Declined {
    /// "Its room is 21 bytes (number 1)".
    Room,
    /// "fields outside 01's for the code awaited".
    Fields,
    Tick,
    /// "fields when none are awaited".
    NotAwaited,
}

impl Declined {
    pub fn number(self) -> u8 {
        match self {
            Declined::Room => 1,
            Declined::Fields => 2,
            Declined::Tick => 6,
            Declined::NotAwaited => 9,
        }
    }
}

/// What a field of an answer may be.
#[derive(Clone, Copy, Debug, PartialEq, Eq)]
pub enum Field {
    /// A count of two digits, up to a limit.
    Count(u32),
    /// 30h to 7Fh.
    Error,
    /// 30h or 31h.
    State,
    /// Its top bit is 1.
    Sensor0,
    Sensor1,
}

impl Field {
    pub fn takes(self, value: u32) -> bool {
        match self {
            Field::Count(most) => value <= most,
            Field::Error => (0x30..=0x7F).contains(&value),
            Field::State => (0x30..=0x31).contains(&value),
            Field::Sensor0 => (0x80..=0xFF).contains(&value),
            Field::Sensor1 => value <= 0xFF,
        }
    }
}

/// The fields of an answer that the caller tells, in the frame's order; the fixed 30h bytes are not told.
pub fn layout(code: Code) -> &'static [Field] {
    const SHOWN: Field = Field::Count(69);
    const REJECTS: Field = Field::Count(99);
    match code {
        Code::Purge => &[Field::Error],
        Code::PayUpper | Code::PayLower => &[SHOWN, SHOWN, Field::Error, Field::State, REJECTS],
        Code::Status => &[Field::Error, Field::Sensor0, Field::Sensor1],
        Code::PayBoth => &[SHOWN, SHOWN, SHOWN, SHOWN, Field::Error, Field::State, Field::State, REJECTS, REJECTS],
        Code::TestUpper | Code::TestLower => &[Field::Count(29), Field::Error, Field::State, REJECTS],
    }
}

/// An answer's fields, as the caller tells them.
#[derive(Clone, Debug, PartialEq, Eq)]
pub struct Fields {
    pub code: Code,
    pub values: Vec<u32>,
}

impl Fields {
    pub fn are_in_range(&self) -> bool {
        layout(self.code).iter().zip(&self.values).all(|(field, &value)| field.takes(value))
    }

    /// The answer's frame.
    fn frame(&self) -> Vec<u8> {
        let mut frame = vec![0x01, 0x50, 0x02, self.code.byte()];
        if self.code == Code::Status {
            frame.push(0x30);
        }
        for (place, (field, &value)) in layout(self.code).iter().zip(&self.values).enumerate() {
            match field {
                Field::Count(_) => frame.extend([b'0' + (value / 10) as u8, b'0' + (value % 10) as u8]),
                _ => frame.push(value as u8),
            }
            if place == 0 && matches!(self.code, Code::TestUpper | Code::TestLower) {
                frame.extend([0x30, 0x30]);
            }
        }
        frame.push(0x03);
        frame.push(check(&frame));
        frame
    }

    /// Notes paid and rejected, upper and lower.
    fn notes(&self) -> [Notes; 2] {
        let none = Notes::default();
        let told = &self.values;
        match self.code {
            Code::Purge | Code::Status => [none, none],
            Code::PayUpper => [Notes { paid: told[1], rejected: told[4] }, none],
            Code::PayLower => [none, Notes { paid: told[1], rejected: told[4] }],
            Code::PayBoth => [Notes { paid: told[1], rejected: told[7] }, Notes { paid: told[3], rejected: told[8] }],
            Code::TestUpper => [Notes { paid: 0, rejected: told[3] }, none],
            Code::TestLower => [none, Notes { paid: 0, rejected: told[3] }],
        }
    }
}

/// "Its own account is of notes the caller said were paid or rejected, for each cassette."
#[derive(Clone, Copy, Debug, Default, PartialEq, Eq)]
pub struct Notes {
    pub paid: u32,
    pub rejected: u32,
}

/// What came of a call.
#[derive(Clone, Copy, Debug, PartialEq, Eq)]
pub enum Came {
    Nothing,
    /// A good command: its fields are awaited.
    Taken(Command),
    /// "06h, or either of those after the third sending, ends it".
    Ended,
}

#[derive(Clone, Debug, PartialEq, Eq)]
pub struct Step {
    pub put: usize,
    pub came: Came,
}

const NOTHING: Step = Step { put: 0, came: Came::Nothing };

#[derive(Clone, Debug, PartialEq, Eq)]
pub enum Phase {
    /// Nothing begun: bytes before 04h are skipped.
    Nothing,
    /// Inside a command, so long since its 04h.
    Reading { bytes: Vec<u8>, waited: u32 },
    /// 06h was sent: the caller's fields are awaited.
    Awaiting(Command),
    /// The answer was sent so often, the last time so long ago.
    Sent { answer: Vec<u8>, sendings: u32, waited: u32 },
}

#[derive(Clone, Debug)]
pub struct Device {
    phase: Phase,
    /// How many commands were answered 06h.
    answered: u32,
    /// Upper and lower.
    account: [Notes; 2],
}

impl Device {
    pub const ROOM: usize = 21;
    pub const FRAME: u32 = 200;
    pub const SILENCE: u32 = 5_050;
    pub const SENDINGS: u32 = 3;
    pub const COMMANDS: u32 = 1_000_000;

    pub fn fresh() -> Device {
        Device { phase: Phase::Nothing, answered: 0, account: [Notes::default(); 2] }
    }

    pub fn account(&self) -> &[Notes; 2] {
        &self.account
    }

    pub fn phase(&self) -> &Phase {
        &self.phase
    }

    pub fn answered(&self) -> u32 {
        self.answered
    }

    fn large_enough(room: &[u8]) -> Result<(), Declined> {
        if room.len() < Device::ROOM {
            Err(Declined::Room)
        } else {
            Ok(())
        }
    }

    pub fn byte(&mut self, byte: u8, room: &mut [u8]) -> Result<Step, Declined> {
        Device::large_enough(room)?;
        Ok(match &mut self.phase {
            Phase::Nothing => {
                if byte == OPENING {
                    self.phase = Phase::Reading { bytes: vec![byte], waited: 0 };
                }
                NOTHING
            }
            Phase::Reading { bytes, .. } => {
                bytes.push(byte);
                if bytes.len() < 4 {
                    return Ok(NOTHING);
                }
                // "an unknown code at once"
                match Code::of(u32::from(bytes[3])) {
                    None => self.bad(room),
                    Some(code) if bytes.len() < command_length(code) => NOTHING,
                    Some(_) => self.judge(room),
                }
            }
            // "All other bytes from its 06h to that end are ignored."
            Phase::Awaiting(_) => NOTHING,
            Phase::Sent { .. } => match byte {
                ACK => self.ended(),
                NAK => self.again(room),
                _ => NOTHING,
            },
        })
    }

    pub fn tick(&mut self, ms: u32, room: &mut [u8]) -> Result<Step, Declined> {
        Device::large_enough(room)?;
        if !is_tick(ms) {
            return Err(Declined::Tick);
        }
        Ok(match &mut self.phase {
            Phase::Nothing | Phase::Awaiting(_) => NOTHING,
            Phase::Reading { waited, .. } => {
                *waited += ms;
                if *waited < Device::FRAME {
                    return Ok(NOTHING);
                }
                self.bad(room)
            }
            Phase::Sent { waited, .. } => {
                *waited += ms;
                if *waited < Device::SILENCE {
                    return Ok(NOTHING);
                }
                self.again(room)
            }
        })
    }

    /// "is told by its caller the answer's fields (what was paid, rejected and so on), sends the answer"
    pub fn tell(&mut self, fields: &Fields, room: &mut [u8]) -> Result<Step, Declined> {
        Device::large_enough(room)?;
        let Phase::Awaiting(command) = self.phase else { return Err(Declined::NotAwaited) };
        if fields.code != command.code || !fields.are_in_range() {
            return Err(Declined::Fields);
        }
        for (sums, notes) in self.account.iter_mut().zip(fields.notes()) {
            sums.paid += notes.paid;
            sums.rejected += notes.rejected;
        }
        let answer = fields.frame();
        let put = sent(&answer, room);
        self.phase = Phase::Sent { answer, sendings: 1, waited: 0 };
        Ok(Step { put, came: Came::Nothing })
    }

    /// A full command.
    fn judge(&mut self, room: &mut [u8]) -> Step {
        let Phase::Reading { bytes, .. } = &self.phase else { unreachable!("a command is full") };
        match command(bytes) {
            // "After 1,000,000 commands answered 06h, each further one gets 15h."
            Some(command) if self.answered < Device::COMMANDS => {
                self.answered += 1;
                self.phase = Phase::Awaiting(command);
                Step { put: sent(&[ACK], room), came: Came::Taken(command) }
            }
            _ => self.bad(room),
        }
    }

    /// "a command late by 200 ms or bad .. gets 15h"
    fn bad(&mut self, room: &mut [u8]) -> Step {
        self.phase = Phase::Nothing;
        Step { put: sent(&[NAK], room), came: Came::Nothing }
    }

    /// "on 15h or 5,050 ms of silence sends it again"
    fn again(&mut self, room: &mut [u8]) -> Step {
        match &mut self.phase {
            Phase::Sent { answer, sendings, waited } if *sendings < Device::SENDINGS => {
                *sendings += 1;
                *waited = 0;
                Step { put: sent(answer, room), came: Came::Nothing }
            }
            _ => self.ended(),
        }
    }

    fn ended(&mut self) -> Step {
        self.phase = Phase::Nothing;
        Step { put: 0, came: Came::Ended }
    }
}

impl Default for Device {
    fn default() -> Device {
        Device::fresh()
    }
}

/// Puts bytes at the room's start.
fn sent(bytes: &[u8], room: &mut [u8]) -> usize {
    room[..bytes.len()].copy_from_slice(bytes);
    bytes.len()
}

/// The column "Command bytes".
pub fn command_length(code: Code) -> usize {
    match code {
        Code::PayUpper | Code::PayLower => 8,
        Code::PayBoth => 10,
        _ => 6,
    }
}

/// The command that a full frame is, if it is good.
pub fn command(frame: &[u8]) -> Option<Command> {
    let code = Code::of(u32::from(frame[3]))?;
    let (front, last) = frame.split_at(frame.len() - 1);
    let [0x04, 0x50, 0x02, _, counts @ .., 0x03] = front else { return None };
    let count = |digits: &[u8]| {
        let is_digit = digits.iter().all(u8::is_ascii_digit);
        let count = u32::from(digits[0].wrapping_sub(b'0')) * 10 + u32::from(digits[1].wrapping_sub(b'0'));
        (is_digit && (1..=60).contains(&count)).then_some(count)
    };
    let counts: Vec<u32> = counts.chunks(2).map(count).collect::<Option<_>>()?;
    let (upper, lower) = match (code, &counts[..]) {
        (Code::PayUpper, &[upper]) => (upper, 0),
        (Code::PayLower, &[lower]) => (0, lower),
        (Code::PayBoth, &[upper, lower]) => (upper, lower),
        (_, []) => (0, 0),
        _ => return None,
    };
    (last == [check(front)] && frame.len() == command_length(code)).then_some(Command { code, upper, lower })
}

#[cfg(test)]
mod tests {
    use super::*;
    use crate::dispenser_frame::read_answer;

    struct End {
        device: Device,
        room: [u8; 24],
    }

    impl End {
        fn fresh() -> End {
            End { device: Device::fresh(), room: [0xA5; 24] }
        }

        /// What the last byte does, and what it puts.
        fn hear(&mut self, bytes: &[u8]) -> (Vec<u8>, Came) {
            let step = bytes.iter().fold(NOTHING, |_, &byte| self.device.byte(byte, &mut self.room).unwrap());
            (self.room[..step.put].to_vec(), step.came)
        }

        fn pass(&mut self, ms: u32) -> (Vec<u8>, Came) {
            let mut step = NOTHING;
            for tick in std::iter::repeat(1_000).take(ms as usize / 1_000).chain([ms % 1_000]).filter(|&tick| tick > 0)
            {
                step = self.device.tick(tick, &mut self.room).unwrap();
            }
            (self.room[..step.put].to_vec(), step.came)
        }

        fn tell(&mut self, code: Code, values: &[u32]) -> Result<Vec<u8>, Declined> {
            let fields = Fields { code, values: values.to_vec() };
            let step = self.device.tell(&fields, &mut self.room)?;
            Ok(self.room[..step.put].to_vec())
        }
    }

    const TEN: [u8; 8] = [0x04, 0x50, 0x02, 0x45, 0x31, 0x30, 0x03, 0x11];
    const PURGE: [u8; 6] = [0x04, 0x50, 0x02, 0x44, 0x03, 0x11];
    const NOTHING_CAME: (Vec<u8>, Came) = (vec![], Came::Nothing);

    fn taken(code: Code, upper: u32, lower: u32) -> (Vec<u8>, Came) {
        (vec![ACK], Came::Taken(Command { code, upper, lower }))
    }

    fn no() -> (Vec<u8>, Came) {
        (vec![NAK], Came::Nothing)
    }

    #[test]
    fn a_payout_from_its_command_to_its_end() {
        let mut end = End::fresh();
        assert_eq!(end.hear(&[0x00, 0x50, 0x06]), NOTHING_CAME);
        assert_eq!(end.hear(&TEN), taken(Code::PayUpper, 10, 0));
        let answer = end.tell(Code::PayUpper, &[10, 9, 0x30, 0x31, 2]).unwrap();
        assert_eq!(
            answer,
            [0x01, 0x50, 0x02, 0x45, 0x31, 0x30, 0x30, 0x39, 0x30, 0x31, 0x30, 0x32, 0x03, check(&answer[..13])]
        );
        assert!(read_answer(&answer).is_ok());
        assert_eq!(end.device.account(), &[Notes { paid: 9, rejected: 2 }, Notes::default()]);
        assert_eq!(end.hear(&[ACK]), (vec![], Came::Ended));
        assert_eq!(end.hear(&[ACK]), NOTHING_CAME);
    }

    #[test]
    fn every_answer_is_one_that_the_host_reads() {
        for code in Code::ALL {
            let mut end = End::fresh();
            let mut room = [0; 16];
            let command = Command {
                code,
                upper: u32::from(matches!(code, Code::PayUpper | Code::PayBoth)),
                lower: u32::from(matches!(code, Code::PayLower | Code::PayBoth)),
            };
            let length = command.write_to(&mut room);
            assert_eq!(length, command_length(code));
            assert_eq!(end.hear(&room[..length]), (vec![ACK], Came::Taken(command)));
            let values: Vec<u32> = layout(code)
                .iter()
                .map(|field| match field {
                    Field::Count(most) => *most,
                    Field::Error | Field::State => 0x31,
                    Field::Sensor0 => 0x80,
                    Field::Sensor1 => 0xFF,
                })
                .collect();
            let answer = end.tell(code, &values).unwrap();
            assert!(read_answer(&answer).is_ok(), "{code:?} {answer:02X?}");
            let notes = |cassette: usize, pays: bool, tests: bool| {
                let wanted = Notes { paid: if pays { 69 } else { 0 }, rejected: if pays || tests { 99 } else { 0 } };
                assert_eq!(end.device.account()[cassette], wanted, "{code:?}");
            };
            notes(0, command.upper == 1, code == Code::TestUpper);
            notes(1, command.lower == 1, code == Code::TestLower);
        }
    }

    #[test]
    fn the_answer_is_sent_three_times() {
        for (ways, ends) in [([1, 1, 1], true), ([0, 0, 0], true), ([1, 0, 1], true), ([0, 1, 0], true)] {
            let mut end = End::fresh();
            end.hear(&PURGE);
            let answer = end.tell(Code::Purge, &[0x30]).unwrap();
            for (sending, way) in ways.into_iter().enumerate() {
                end.hear(&[0x00, 0x01, 0x04]);
                end.pass(5_049);
                let came = if way == 1 { end.hear(&[NAK]) } else { end.pass(1) };
                let wanted = if sending == 2 { (vec![], Came::Ended) } else { (answer.clone(), Came::Nothing) };
                assert_eq!(came, wanted);
            }
            assert_eq!(end.device.phase() == &Phase::Nothing, ends);
            assert_eq!(end.pass(6_000), NOTHING_CAME);
        }
    }

    #[test]
    fn while_fields_are_awaited_nothing_matters() {
        let mut end = End::fresh();
        end.hear(&PURGE);
        assert_eq!(end.hear(&[ACK, NAK, 0x04, 0x50, 0x02, 0x44, 0x03, 0x11, NAK]), NOTHING_CAME);
        assert_eq!(end.pass(100_000), NOTHING_CAME);
        assert_eq!(end.tell(Code::Purge, &[0x30]).unwrap().len(), 7);
    }

    #[test]
    fn commands_that_get_15() {
        let mut end = End::fresh();
        // an unknown code at once, whatever stands before it
        assert_eq!(end.hear(&[0x04, 0x00, 0x00, 0x47]), no());
        // a wrong opening, closing, check, digit or count when it is full
        for (place, byte) in [(1, 0x30), (2, 0x03), (6, 0x02), (7, 0x12)] {
            let mut wrong = TEN;
            wrong[place] = byte;
            if place != 7 {
                wrong[7] = check(&wrong[..7]);
            }
            assert_eq!(end.hear(&wrong[..7]), NOTHING_CAME);
            assert_eq!(end.hear(&wrong[7..]), no(), "{wrong:02X?}");
        }
        for digits in [[0x30, 0x30], [0x36, 0x31], [0x31, 0x3A], [0x2F, 0x31]] {
            let mut wrong = [0x04, 0x50, 0x02, 0x45, digits[0], digits[1], 0x03, 0x00];
            wrong[7] = check(&wrong[..7]);
            assert_eq!(end.hear(&wrong), no(), "{digits:02X?}");
        }
        // late: 200 ms from its 04h, whatever came since
        end.hear(&TEN[..1]);
        end.pass(150);
        end.hear(&TEN[1..7]);
        assert_eq!(end.pass(49), NOTHING_CAME);
        let mut late = End { device: end.device.clone(), room: end.room };
        assert_eq!(end.hear(&TEN[7..]), taken(Code::PayUpper, 10, 0));
        assert_eq!(late.pass(1), no());
        assert_eq!(late.hear(&TEN[7..]), NOTHING_CAME);
        assert_eq!(late.hear(&TEN), taken(Code::PayUpper, 10, 0));
    }

    #[test]
    fn a_check_of_04_begins_nothing() {
        let mut end = End::fresh();
        let fifteen = [0x04, 0x50, 0x02, 0x55, 0x31, 0x35, 0x03, 0x04];
        assert_eq!(end.hear(&fifteen), taken(Code::PayLower, 0, 15));
    }

    #[test]
    fn the_numbers_of_telling() {
        let mut end = End::fresh();
        let good = Fields { code: Code::PayUpper, values: vec![10, 10, 0x30, 0x30, 0] };
        assert_eq!(end.tell(Code::PayUpper, &good.values), Err(Declined::NotAwaited));
        // out of range where none is awaited is 9
        assert_eq!(end.tell(Code::PayUpper, &[70, 10, 0x30, 0x30, 0]), Err(Declined::NotAwaited));
        end.hear(&TEN);
        let before = format!("{:?}", end.device);
        assert_eq!(end.device.tell(&good, &mut [0; 20]), Err(Declined::Room));
        for values in [
            [70, 10, 0x30, 0x30, 0],
            [10, 70, 0x30, 0x30, 0],
            [10, 10, 0x2F, 0x30, 0],
            [10, 10, 0x80, 0x30, 0],
            [10, 10, 0x30, 0x32, 0],
            [10, 10, 0x30, 0x30, 100],
        ] {
            assert_eq!(end.tell(Code::PayUpper, &values), Err(Declined::Fields), "{values:?}");
        }
        assert_eq!(end.tell(Code::PayLower, &good.values), Err(Declined::Fields));
        assert_eq!(end.tell(Code::Purge, &[0x30]), Err(Declined::Fields));
        assert_eq!(format!("{:?}", end.device), before);
        // more than was asked, and an unlisted error
        assert!(end.tell(Code::PayUpper, &[69, 69, 0x7F, 0x31, 99]).is_ok());
        assert_eq!(end.tell(Code::PayUpper, &good.values), Err(Declined::NotAwaited));
    }

    #[test]
    fn a_small_room_and_a_wrong_tick() {
        let mut end = End::fresh();
        assert_eq!(end.device.byte(0x04, &mut [0; 20]), Err(Declined::Room));
        assert_eq!(end.device.tick(0, &mut [0; 20]), Err(Declined::Room));
        assert_eq!(end.device.tick(0, &mut [0; 21]), Err(Declined::Tick));
        assert_eq!(end.device.tick(1_001, &mut [0; 21]), Err(Declined::Tick));
        assert_eq!(end.device.phase(), &Phase::Nothing);
    }

    #[test]
    fn after_a_million_each_further_one_gets_15() {
        let mut end = End::fresh();
        end.device.answered = Device::COMMANDS - 1;
        end.hear(&PURGE);
        end.tell(Code::Purge, &[0x30]).unwrap();
        end.hear(&[ACK]);
        for _ in 0..2 {
            assert_eq!(end.hear(&PURGE), no());
        }
        assert_eq!(end.device.answered(), Device::COMMANDS);
    }
}
