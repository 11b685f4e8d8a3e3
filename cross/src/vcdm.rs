//! The session with a four-cassette unit (Q-3 of document 02): "The dispenser session" of document 01 with this unit's commands, its serial
//! byte and its account of four cassettes.

use crate::account::Sums;
use crate::dispenser::{is_tick, large_enough, Declined, Unknown, ACK, NAK, START};
use crate::vcdm_frame::{is_payable, Answer, Code, Command, ANSWER, CASSETTES, FIRST_SERIAL, LAST_SERIAL};

/// How a command was closed.
#[derive(Clone, Debug, PartialEq, Eq)]
pub enum Closing {
    Answered(Answer),
    /// By a fourth 15h, or by an answer which says that the serial was repeated.
    Refused,
    Unknown(Unknown),
}

/// "how many bytes it put at the room's start and which closing it made, if any"
#[derive(Clone, Debug, PartialEq, Eq)]
pub struct Step {
    pub put: usize,
    pub closing: Option<Closing>,
}

const NOTHING: Step = Step { put: 0, closing: None };

#[derive(Clone, Copy, Debug, PartialEq, Eq)]
pub enum Phase {
    Idle,
    First,
    Start,
    Inside,
}

#[derive(Clone, Debug)]
pub struct Session {
    phase: Phase,
    waited: u32,
    limit: u32,
    code: Code,
    command: Command,
    hand_overs: u32,
    naks: u32,
    gathered: Vec<u8>,
    accepted: u32,
    /// The serial of the next dispense.
    serial: u8,
    account: [Sums; CASSETTES],
}

impl Session {
    pub const QUIET: u32 = 5_200;
    pub const QUIET_AFTER_UNKNOWN: u32 = 95_200;
    /// "Reset leaves the line unready for 2,000 ms more quiet."
    pub const AFTER_RESET: u32 = 2_000;
    pub const FIRST_BYTE: u32 = 5_050;
    pub const ANSWER: u32 = 90_000;
    pub const AFTER_NAK: u32 = 5_050;
    pub const FRAME: u32 = 200;
    pub const HAND_OVERS: u32 = 4;
    pub const NAKS: u32 = 3;
    pub const COMMANDS: u32 = 1_000_000;
    pub const ROOM: usize = 16;
    /// "Error 1Dh, in the form 000's error section gives it on the wire": plus 20h.
    pub const REPEATED: u32 = 0x3D;

    pub fn fresh() -> Session {
        Session {
            phase: Phase::Idle,
            waited: 0,
            limit: Session::QUIET,
            code: Code::Status,
            command: Command { code: 0, counts: [0; CASSETTES], serial: 0 },
            hand_overs: 0,
            naks: 0,
            gathered: Vec::with_capacity(ANSWER),
            accepted: 0,
            serial: FIRST_SERIAL,
            account: [Sums::default(); CASSETTES],
        }
    }

    pub fn account(&self) -> &[Sums; CASSETTES] {
        &self.account
    }

    pub fn phase(&self) -> Phase {
        self.phase
    }

    /// How long the line has been quiet, and how long it has to be; none while a command is open.
    pub fn quiet(&self) -> Option<(u32, u32)> {
        (self.phase == Phase::Idle).then_some((self.waited, self.limit))
    }

    /// The last command that was accepted.
    pub fn command(&self) -> &Command {
        &self.command
    }

    pub fn hand_overs(&self) -> u32 {
        self.hand_overs
    }

    pub fn naks(&self) -> u32 {
        self.naks
    }

    /// The bytes of the answer so far.
    pub fn gathered(&self) -> &[u8] {
        &self.gathered
    }

    pub fn request(&mut self, code: u8, counts: [u32; CASSETTES], room: &mut [u8]) -> Result<Step, Declined> {
        large_enough(room, Session::ROOM)?;
        let code = Code::of(code).ok_or(Declined::Range)?;
        let in_range = if code == Code::Dispense { is_payable(counts) } else { counts == [0; CASSETTES] };
        if !in_range {
            return Err(Declined::Range);
        }
        if self.phase != Phase::Idle {
            return Err(Declined::Open);
        }
        if self.waited < self.limit {
            return Err(Declined::Quiet);
        }
        if self.accepted >= Session::COMMANDS {
            return Err(Declined::Spent);
        }
        self.accepted += 1;
        self.code = code;
        let serial = if code == Code::Dispense { self.next_serial() } else { 0 };
        self.command = Command { code: code.byte(), counts, serial };
        (self.hand_overs, self.naks) = (0, 0);
        self.each(|sums, asked| {
            sums.asked += asked;
            sums.open += asked;
        });
        Ok(self.hand_over(room))
    }

    /// "a newly accepted dispense takes the next, the first 21h"
    fn next_serial(&mut self) -> u8 {
        let serial = self.serial;
        self.serial = if serial == LAST_SERIAL { FIRST_SERIAL } else { serial + 1 };
        serial
    }

    /// Each cassette's sums, with what was asked of it.
    fn each(&mut self, change: impl Fn(&mut Sums, u32)) {
        self.account.iter_mut().zip(self.command.counts).for_each(|(sums, asked)| change(sums, asked));
    }

    pub fn byte(&mut self, byte: u8, room: &mut [u8]) -> Result<Step, Declined> {
        large_enough(room, Session::ROOM)?;
        Ok(match self.phase {
            Phase::Idle => {
                self.waited = 0;
                NOTHING
            }
            Phase::First => match byte {
                ACK => {
                    self.wait(Phase::Start, Session::ANSWER);
                    NOTHING
                }
                NAK if self.hand_overs < Session::HAND_OVERS => self.hand_over(room),
                NAK => self.refused(0),
                _ => self.lost(0, Unknown::OtherByte),
            },
            Phase::Start => {
                if byte == START {
                    self.gathered.clear();
                    self.gathered.push(byte);
                    self.wait(Phase::Inside, Session::FRAME);
                }
                NOTHING
            }
            Phase::Inside => {
                self.gathered.push(byte);
                if self.gathered.len() < self.code.answer_length() {
                    return Ok(NOTHING);
                }
                self.judge(room)
            }
        })
    }

    pub fn tick(&mut self, ms: u32, room: &mut [u8]) -> Result<Step, Declined> {
        large_enough(room, Session::ROOM)?;
        if !is_tick(ms) {
            return Err(Declined::Tick);
        }
        self.waited = self.waited.saturating_add(ms);
        if self.waited < self.limit {
            return Ok(NOTHING);
        }
        Ok(match self.phase {
            Phase::Idle => NOTHING,
            Phase::First => self.lost(0, Unknown::Silence),
            Phase::Start if self.naks == 0 => self.lost(0, Unknown::NoStart),
            Phase::Start => self.lost(0, Unknown::NoStartAgain),
            Phase::Inside => self.bad(Unknown::ThirdLate, room),
        })
    }

    fn wait(&mut self, phase: Phase, limit: u32) {
        (self.phase, self.waited, self.limit) = (phase, 0, limit);
    }

    fn hand_over(&mut self, room: &mut [u8]) -> Step {
        self.hand_overs += 1;
        self.wait(Phase::First, Session::FIRST_BYTE);
        let put = self.command.write(room).expect("a command in range, and a room of 16 bytes");
        Step { put, closing: None }
    }

    /// "An answer with another serial is bad."
    fn judge(&mut self, room: &mut [u8]) -> Step {
        let answer = match Answer::read(&self.gathered) {
            Ok(answer) if answer.code == self.code => answer,
            _ => return self.bad(Unknown::ThirdBad, room),
        };
        if answer.serial().is_some_and(|serial| serial != u32::from(self.command.serial)) {
            return self.bad(Unknown::ThirdBad, room);
        }
        room[0] = ACK;
        if self.code != Code::Dispense {
            // "Last status alters no sum", and so do the others
            return self.close(1, Closing::Answered(answer), Session::QUIET);
        }
        if answer.error() == Session::REPEATED {
            return self.refused(1);
        }
        let counts = answer.counts().expect("a dispense has counts");
        for ((sums, asked), (exit, reject)) in self.account.iter_mut().zip(self.command.counts).zip(counts) {
            sums.open -= asked;
            sums.paid += exit;
            sums.short += asked.saturating_sub(exit);
            sums.over += exit.saturating_sub(asked);
            sums.rejected += reject;
        }
        self.close(1, Closing::Answered(answer), Session::QUIET)
    }

    fn bad(&mut self, third: Unknown, room: &mut [u8]) -> Step {
        room[0] = NAK;
        self.naks += 1;
        if self.naks == Session::NAKS {
            return self.lost(1, third);
        }
        self.wait(Phase::Start, Session::AFTER_NAK);
        Step { put: 1, closing: None }
    }

    fn refused(&mut self, put: usize) -> Step {
        self.each(|sums, asked| {
            sums.open -= asked;
            sums.refused += asked;
        });
        self.close(put, Closing::Refused, Session::QUIET)
    }

    fn lost(&mut self, put: usize, how: Unknown) -> Step {
        self.each(|sums, asked| {
            sums.open -= asked;
            sums.unknown += asked;
        });
        self.close(put, Closing::Unknown(how), Session::QUIET_AFTER_UNKNOWN)
    }

    fn close(&mut self, put: usize, closing: Closing, quiet: u32) -> Step {
        let more = if self.code == Code::Reset { Session::AFTER_RESET } else { 0 };
        self.wait(Phase::Idle, quiet + more);
        Step { put, closing: Some(closing) }
    }
}

impl Default for Session {
    fn default() -> Session {
        Session::fresh()
    }
}

#[cfg(test)]
mod tests {
    use super::*;
    use crate::vcdm_frame::check;

    struct Host {
        session: Session,
        room: [u8; 40],
    }

    impl Host {
        fn fresh() -> Host {
            Host { session: Session::fresh(), room: [0xA5; 40] }
        }

        fn pass(&mut self, ms: u32) -> Option<Step> {
            let mut last = None;
            for tick in std::iter::repeat(1_000).take(ms as usize / 1_000).chain([ms % 1_000]).filter(|&tick| tick > 0)
            {
                last = Some(self.session.tick(tick, &mut self.room).unwrap());
            }
            last
        }

        fn ask(&mut self, code: u8, counts: [u32; 4]) -> Result<Vec<u8>, Declined> {
            let step = self.session.request(code, counts, &mut self.room)?;
            Ok(self.room[..step.put].to_vec())
        }

        /// What the last byte does.
        fn hear(&mut self, bytes: &[u8]) -> Step {
            bytes.iter().fold(NOTHING, |_, &byte| self.session.byte(byte, &mut self.room).unwrap())
        }

        fn sums(&self, of: fn(&Sums) -> u32) -> [u32; 4] {
            [0, 1, 2, 3].map(|cassette| of(&self.session.account()[cassette]))
        }

        fn quiet_needed(&self) -> u32 {
            self.session.quiet().unwrap().1
        }
    }

    fn frame(code: u8, fields: &[u8]) -> Vec<u8> {
        let mut frame = [&[0x01, 0x30, 0x02, code], fields, &[0x03]].concat();
        frame.push(check(&frame));
        frame
    }

    fn paid(error: u8, serial: u8, exit: [u8; 4], reject: [u8; 4]) -> Vec<u8> {
        let counted = (0..4).flat_map(|one| [exit[one] + 0x20, reject[one] + 0x20, 0x31]);
        frame(0x52, &[&[error, serial], &counted.collect::<Vec<u8>>()[..], &[0x20; 9]].concat())
    }

    #[test]
    fn a_dispense_as_asked_and_not() {
        let mut host = Host::fresh();
        host.pass(5_200);
        assert_eq!(host.ask(0x52, [1, 2, 3, 4]).unwrap()[4..11], [0x21, 0x22, 0x23, 0x24, 0x20, 0x20, 0x21]);
        assert_eq!(host.sums(|sums| sums.open), [1, 2, 3, 4]);
        host.hear(&[ACK]);
        let step = host.hear(&paid(0x2D, 0x21, [1, 2, 2, 5], [0, 0, 1, 0]));
        assert_eq!((step.put, host.room[0]), (1, ACK));
        assert!(matches!(step.closing, Some(Closing::Answered(_))));
        assert_eq!(host.sums(|sums| sums.paid), [1, 2, 2, 5]);
        assert_eq!(host.sums(|sums| sums.short), [0, 0, 1, 0]);
        assert_eq!(host.sums(|sums| sums.over), [0, 0, 0, 1]);
        assert_eq!(host.sums(|sums| sums.rejected), [0, 0, 1, 0]);
        assert_eq!(host.sums(|sums| sums.open), [0; 4]);
    }

    #[test]
    fn a_repeated_serial_is_refused_after_our_06() {
        let mut host = Host::fresh();
        host.pass(5_200);
        host.ask(0x52, [1, 2, 3, 4]).unwrap();
        host.hear(&[ACK]);
        let step = host.hear(&paid(0x3D, 0x21, [9; 4], [9; 4]));
        assert_eq!((step, host.room[0]), (Step { put: 1, closing: Some(Closing::Refused) }, ACK));
        assert_eq!(host.sums(|sums| sums.refused), [1, 2, 3, 4]);
        assert_eq!((host.sums(|sums| sums.paid), host.sums(|sums| sums.rejected)), ([0; 4], [0; 4]));
        assert_eq!(host.quiet_needed(), 5_200);
        // a raw 1Dh is an error like any other
        host.pass(5_200);
        host.ask(0x52, [1, 0, 0, 0]).unwrap();
        host.hear(&[ACK]);
        assert!(matches!(host.hear(&paid(0x1D, 0x22, [1; 4], [0; 4])).closing, Some(Closing::Answered(_))));
        assert_eq!(host.sums(|sums| sums.over), [0, 1, 1, 1]);
    }

    #[test]
    fn another_serial_is_bad() {
        let mut host = Host::fresh();
        host.pass(5_200);
        host.ask(0x52, [1, 0, 0, 0]).unwrap();
        host.hear(&[ACK]);
        for (error, serial) in [(0x20, 0x22), (0x3D, 0x7F)] {
            assert_eq!(host.hear(&paid(error, serial, [1, 0, 0, 0], [0; 4])), Step { put: 1, closing: None });
            assert_eq!(host.room[0], NAK);
        }
        let step = host.hear(&paid(0x20, 0x22, [1, 0, 0, 0], [0; 4]));
        assert_eq!(step, Step { put: 1, closing: Some(Closing::Unknown(Unknown::ThirdBad)) });
        assert_eq!(host.sums(|sums| sums.unknown), [1, 0, 0, 0]);
    }

    #[test]
    fn serials_follow_one_another_and_a_resend_keeps_its_own() {
        let mut host = Host::fresh();
        for number in 0..200_u32 {
            host.pass(6_000);
            let sent = host.ask(0x52, [0, 0, 0, 1]).unwrap();
            assert_eq!(u32::from(sent[10]), 0x21 + number % 95);
            for _ in 0..3 {
                let step = host.hear(&[NAK]);
                assert_eq!(host.room[..step.put], sent);
            }
            assert_eq!(host.hear(&[NAK]), Step { put: 0, closing: Some(Closing::Refused) });
            // no other command takes one, and neither does a request that is refused
            host.ask(0x52, [0, 0, 0, 1]).unwrap_err();
            host.pass(6_000);
            host.ask(0x52, [21, 0, 0, 0]).unwrap_err();
            host.ask(0x50, [0; 4]).unwrap();
            host.ask(0x52, [0, 0, 0, 1]).unwrap_err();
            host.hear(&[NAK; 4]);
        }
        assert_eq!(host.sums(|sums| sums.refused), [0, 0, 0, 200]);
    }

    #[test]
    fn a_reset_needs_2000_ms_more() {
        for (said, needed) in
            [([&[ACK], &frame(0x44, &[0x30])[..]].concat(), 7_200), (vec![NAK; 4], 7_200), (vec![0x00], 97_200)]
        {
            let mut host = Host::fresh();
            host.pass(5_200);
            host.ask(0x44, [0; 4]).unwrap();
            host.hear(&said);
            assert_eq!(host.quiet_needed(), needed);
            host.pass(needed - 1);
            assert_eq!(host.ask(0x50, [0; 4]), Err(Declined::Quiet));
            host.hear(&[0x00]);
            host.pass(needed - 1);
            assert_eq!(host.ask(0x50, [0; 4]), Err(Declined::Quiet));
            host.pass(1);
            host.ask(0x50, [0; 4]).unwrap();
            host.hear(&[NAK; 4]);
            assert_eq!(host.quiet_needed(), 5_200);
        }
    }

    #[test]
    fn what_alters_no_sum() {
        let mut host = Host::fresh();
        let counted = [&[0x29, 0x29, 0x31].repeat(4)[..], &[0x20; 9]].concat();
        for (code, fields) in [
            (0x51, [&[0x3D, 0x30], &counted[..]].concat()),
            (0x55, [&[0x52, 0x3D, 0x50], &counted[..]].concat()),
            (0x44, vec![0x3D]),
        ] {
            host.pass(8_000);
            host.ask(code, [0; 4]).unwrap();
            host.hear(&[ACK]);
            let step = host.hear(&frame(code, &fields));
            assert!(matches!(step.closing, Some(Closing::Answered(_))), "{code:02X}");
        }
        assert_eq!(host.session.account(), &[Sums::default(); 4]);
    }

    #[test]
    fn the_numbers_of_a_request() {
        let mut host = Host::fresh();
        let small = &mut [0; 15];
        assert_eq!(host.session.request(0x53, [21; 4], small), Err(Declined::Room));
        assert_eq!(host.session.byte(0x00, small), Err(Declined::Room));
        assert_eq!(host.session.tick(0, small), Err(Declined::Room));
        assert_eq!(host.session.tick(1_001, &mut [0; 16]), Err(Declined::Tick));
        assert_eq!(host.ask(0x53, [0; 4]), Err(Declined::Range));
        assert_eq!(host.ask(0x52, [0; 4]), Err(Declined::Range));
        assert_eq!(host.ask(0x52, [0, 0, 0, 1]), Err(Declined::Quiet));
        host.pass(5_200);
        for counts in [[0, 0, 0, 1], [20, 0, 0, 0]] {
            assert!(host.session.clone().request(0x52, counts, &mut [0; 16]).is_ok());
        }
        for counts in [[0, 0, 0, 0], [21, 0, 0, 0], [20, 1, 0, 0], [u32::MAX, 2, 0, 0]] {
            assert_eq!(host.ask(0x52, counts), Err(Declined::Range));
        }
        assert_eq!(host.ask(0x44, [0, 1, 0, 0]), Err(Declined::Range));
        host.ask(0x44, [0; 4]).unwrap();
        assert_eq!(host.ask(0x44, [0; 4]), Err(Declined::Open));
        assert_eq!(host.ask(0x44, [1; 4]), Err(Declined::Range));
    }

    #[test]
    fn a_million_commands() {
        let mut host = Host::fresh();
        host.session.accepted = Session::COMMANDS - 1;
        host.pass(5_200);
        host.ask(0x50, [0; 4]).unwrap();
        host.hear(&[NAK; 4]);
        assert_eq!(host.ask(0x50, [0; 4]), Err(Declined::Quiet));
        host.pass(5_200);
        assert_eq!(host.ask(0x50, [0; 4]), Err(Declined::Spent));
    }

    #[test]
    fn waits_end_as_on_the_other_line() {
        let mut host = Host::fresh();
        host.pass(5_200);
        host.ask(0x50, [0; 4]).unwrap();
        assert_eq!(host.pass(5_049).unwrap(), NOTHING);
        assert_eq!(host.pass(1).unwrap().closing, Some(Closing::Unknown(Unknown::Silence)));
        assert_eq!(host.quiet_needed(), 95_200);
        host.pass(95_200);
        host.ask(0x50, [0; 4]).unwrap();
        host.hear(&[ACK, NAK, ACK]);
        host.pass(89_999);
        host.hear(&[START]);
        host.pass(199);
        let late = host.pass(1).unwrap();
        assert_eq!((late, host.room[0]), (Step { put: 1, closing: None }, NAK));
        host.pass(5_049);
        assert_eq!(host.pass(1).unwrap().closing, Some(Closing::Unknown(Unknown::NoStartAgain)));
    }
}
