//! "The dispenser session": one command at a time, its hand-overs, its waits and its closing; the stop after two unknowns
//! (Q-9 of document 02).

use crate::account::Account;
use crate::dispenser_frame::{self, Answer, Code, Command, ANSWER};
use crate::error_class::ErrorClass;

pub const ACK: u8 = 0x06;
pub const NAK: u8 = 0x15;
pub const START: u8 = 0x01;

/// Why a call is refused.
#[derive(Clone, Copy, Debug, PartialEq, Eq)]
pub enum Declined {
    Room,
    Range,
    Open,
    Quiet,
    Spent,
    Tick,
    Stopped,
}

impl Declined {
    pub fn number(self) -> u8 {
        match self {
            Declined::Room => 1,
            Declined::Range => 2,
            Declined::Open => 3,
            Declined::Quiet => 4,
            Declined::Spent => 5,
            Declined::Tick => 6,
            Declined::Stopped => 7,
        }
    }
}

/// "room lent for sending is under 16 bytes (dispenser session), 255 (validator session)"
#[inline]
pub fn large_enough(room: &[u8], least: usize) -> Result<(), Declined> {
    if room.len() < least {
        Err(Declined::Room)
    } else {
        Ok(())
    }
}

/// "a tick is not 1 to 1,000 ms"
#[inline]
pub fn is_tick(ms: u32) -> bool {
    (1..=1_000).contains(&ms)
}

/// How a command was closed.
#[derive(Clone, Copy, Debug, PartialEq, Eq)]
pub enum Closing {
    Answered(Answer, ErrorClass),
    Refused,
    Unknown(Unknown),
}

/// The ways to an unknown closing. The rules make no difference between them; the reach table does.
#[derive(Clone, Copy, Debug, PartialEq, Eq)]
pub enum Unknown {
    /// "any other byte, close as unknown at once"
    OtherByte,
    /// "No byte within the wait"
    Silence,
    /// "No start within the wait", after 06h
    NoStart,
    /// The same, after a 15h of ours
    NoStartAgain,
    /// "the third 15h of a command", after a bad frame
    ThirdBad,
    /// The same, after a late one
    ThirdLate,
}

/// "how many bytes it put at the room's start and which closing it made, if any"
#[derive(Clone, Copy, Debug, PartialEq, Eq)]
pub struct Step {
    pub put: usize,
    pub closing: Option<Closing>,
}

const NOTHING: Step = Step { put: 0, closing: None };

/// What the session waits for.
#[derive(Clone, Copy, Debug, PartialEq, Eq)]
pub enum Phase {
    /// Nothing open: the wait is the quiet time.
    Idle,
    /// Handed over: the first byte is awaited.
    First,
    /// 06h came: the answer's 01h is awaited.
    Start,
    /// 01h came: the frame is gathered.
    Inside,
}

#[derive(Clone, Debug)]
pub struct Session {
    phase: Phase,
    /// How much of the wait, or of the quiet time, has gone by.
    waited: u32,
    /// Where the wait ends; while idle, the quiet time that the next command needs.
    limit: u32,
    command: Command,
    hand_overs: u32,
    /// How often 15h was sent for the open command.
    naks: u32,
    gathered: usize,
    frame: [u8; ANSWER],
    accepted: u32,
    /// How many paying requests in succession have closed unknown.
    unknowns: u32,
    account: Account,
}

impl Session {
    pub const QUIET: u32 = 5_200;
    pub const QUIET_AFTER_UNKNOWN: u32 = 95_200;
    pub const FIRST_BYTE: u32 = 5_050;
    pub const ANSWER: u32 = 90_000;
    pub const AFTER_NAK: u32 = 5_050;
    pub const FRAME: u32 = 200;
    pub const HAND_OVERS: u32 = 4;
    pub const NAKS: u32 = 3;
    pub const COMMANDS: u32 = 1_000_000;
    pub const UNKNOWNS: u32 = 2;
    pub const ROOM: usize = 16;

    /// "A fresh session has zero sums, no open command and zero quiet time."
    pub fn fresh() -> Session {
        Session {
            phase: Phase::Idle,
            waited: 0,
            limit: Session::QUIET,
            command: Command { code: Code::Status, upper: 0, lower: 0 },
            hand_overs: 0,
            naks: 0,
            gathered: 0,
            frame: [0; ANSWER],
            accepted: 0,
            unknowns: 0,
            account: Account::default(),
        }
    }

    pub fn account(&self) -> &Account {
        &self.account
    }

    /// How long the line has been quiet, and how long it has to be; none while a command is open.
    pub fn quiet(&self) -> Option<(u32, u32)> {
        (self.phase == Phase::Idle).then_some((self.waited, self.limit))
    }

    pub fn phase(&self) -> Phase {
        self.phase
    }

    /// How many paying requests in succession have closed unknown.
    pub fn unknowns(&self) -> u32 {
        self.unknowns
    }

    /// "Two paying requests in succession which closed unknown mean a cable is out."
    pub fn is_stopped(&self) -> bool {
        self.unknowns >= Session::UNKNOWNS
    }

    /// "Clear is refused with 3 while a command is open, else starts the succession afresh and changes no sum."
    pub fn clear(&mut self) -> Result<(), Declined> {
        if self.phase != Phase::Idle {
            return Err(Declined::Open);
        }
        self.unknowns = 0;
        Ok(())
    }

    /// "the lowest that applies is given"; "paying requests get the new number 7, after number 5 in order"
    pub fn request(&mut self, command: Command, room: &mut [u8]) -> Result<Step, Declined> {
        large_enough(room, Session::ROOM)?;
        if !command.is_sendable() {
            return Err(Declined::Range);
        }
        if self.phase != Phase::Idle {
            return Err(Declined::Open);
        }
        if self.waited < self.limit {
            return Err(Declined::Quiet);
        }
        if self.accepted >= Session::COMMANDS {
            return Err(Declined::Spent);
        }
        if self.is_stopped() && command.code.pays() {
            return Err(Declined::Stopped);
        }
        self.accepted += 1;
        self.command = command;
        self.hand_overs = 0;
        self.naks = 0;
        self.account.opened(command);
        Ok(self.hand_over(room))
    }

    #[inline]
    pub fn byte(&mut self, byte: u8, room: &mut [u8]) -> Result<Step, Declined> {
        large_enough(room, Session::ROOM)?;
        Ok(match self.phase {
            Phase::Idle => {
                self.waited = 0;
                NOTHING
            }
            Phase::First => self.first(byte, room),
            Phase::Start => {
                if byte == START {
                    self.frame[0] = byte;
                    self.gathered = 1;
                    self.wait(Phase::Inside, Session::FRAME);
                }
                NOTHING
            }
            Phase::Inside => {
                self.frame[self.gathered] = byte;
                self.gathered += 1;
                if self.gathered < self.command.code.answer_length() {
                    NOTHING
                } else {
                    self.judge(room)
                }
            }
        })
    }

    /// "A wait ends by the tick that brings its sum to the limit or past it; the excess is dropped."
    #[inline]
    pub fn tick(&mut self, ms: u32, room: &mut [u8]) -> Result<Step, Declined> {
        large_enough(room, Session::ROOM)?;
        if !is_tick(ms) {
            return Err(Declined::Tick);
        }
        self.waited = self.waited.saturating_add(ms);
        if self.waited < self.limit {
            return Ok(NOTHING);
        }
        Ok(match self.phase {
            Phase::Idle => NOTHING,
            Phase::First => self.lost(0, Unknown::Silence),
            Phase::Start if self.naks == 0 => self.lost(0, Unknown::NoStart),
            Phase::Start => self.lost(0, Unknown::NoStartAgain),
            Phase::Inside => self.bad(Unknown::ThirdLate, room),
        })
    }

    fn wait(&mut self, phase: Phase, limit: u32) {
        self.phase = phase;
        self.waited = 0;
        self.limit = limit;
    }

    fn hand_over(&mut self, room: &mut [u8]) -> Step {
        self.hand_overs += 1;
        self.account.handed_over();
        self.wait(Phase::First, Session::FIRST_BYTE);
        Step { put: self.command.write_to(room), closing: None }
    }

    /// "First byte since a hand-over"
    fn first(&mut self, byte: u8, room: &mut [u8]) -> Step {
        match byte {
            ACK => {
                self.wait(Phase::Start, Session::ANSWER);
                NOTHING
            }
            NAK if self.hand_overs < Session::HAND_OVERS => self.hand_over(room),
            NAK => {
                self.account.refused();
                self.closed_known();
                self.close(0, Closing::Refused)
            }
            _ => self.lost(0, Unknown::OtherByte),
        }
    }

    /// "Good answer with the code asked: send 06h and close as answered. Any other full frame (bad) ..: send 15h".
    fn judge(&mut self, room: &mut [u8]) -> Step {
        let frame = &self.frame[..self.gathered];
        if frame[3] != self.command.code.byte() {
            return self.bad(Unknown::ThirdBad, room);
        }
        match dispenser_frame::read_answer(frame) {
            Ok((answer, error)) => {
                self.account.answered(answer);
                self.closed_known();
                self.close(reply(ACK, room), Closing::Answered(answer, error))
            }
            Err(_) => self.bad(Unknown::ThirdBad, room),
        }
    }

    /// "the third 15h of a command is sent and closes it as unknown"
    fn bad(&mut self, third: Unknown, room: &mut [u8]) -> Step {
        let put = reply(NAK, room);
        self.naks += 1;
        if self.naks == Session::NAKS {
            return self.lost(put, third);
        }
        self.wait(Phase::Start, Session::AFTER_NAK);
        Step { put, closing: None }
    }

    /// "Status, purge and test .. do not break the succession; an answered or refused payout does."
    fn closed_known(&mut self) {
        if self.command.code.pays() {
            self.unknowns = 0;
        }
    }

    fn lost(&mut self, put: usize, how: Unknown) -> Step {
        self.account.lost();
        if self.command.code.pays() {
            self.unknowns += 1;
        }
        let step = self.close(put, Closing::Unknown(how));
        self.limit = Session::QUIET_AFTER_UNKNOWN;
        step
    }

    fn close(&mut self, put: usize, closing: Closing) -> Step {
        self.wait(Phase::Idle, Session::QUIET);
        Step { put, closing: Some(closing) }
    }
}

/// Puts a single byte at the room's start.
fn reply(byte: u8, room: &mut [u8]) -> usize {
    room[0] = byte;
    1
}

impl Default for Session {
    fn default() -> Session {
        Session::fresh()
    }
}

#[cfg(test)]
mod tests {
    use super::*;
    use crate::dispenser_frame::{answer, Counted, Payment};

    const TEN: Command = Command { code: Code::PayUpper, upper: 10, lower: 0 };

    /// What a call did: the bytes that it sent, and its closing.
    type Did = (Vec<u8>, Option<Closing>);

    /// A host with a room.
    #[derive(Clone)]
    struct Host {
        session: Session,
        room: [u8; Session::ROOM],
    }

    impl Host {
        fn fresh() -> Host {
            Host { session: Session::fresh(), room: [0xEE; Session::ROOM] }
        }

        /// What was sent, taken out of the room; the rest of the room must be as it was.
        fn did(&mut self, step: Step) -> Did {
            let sent = self.room[..step.put].to_vec();
            assert!(self.room[step.put..].iter().all(|&byte| byte == 0xEE));
            self.room = [0xEE; Session::ROOM];
            (sent, step.closing)
        }

        fn request(&mut self, command: Command) -> Result<Did, Declined> {
            let step = self.session.request(command, &mut self.room)?;
            Ok(self.did(step))
        }

        fn byte(&mut self, byte: u8) -> Did {
            let step = self.session.byte(byte, &mut self.room).unwrap();
            self.did(step)
        }

        fn tick(&mut self, ms: u32) -> Result<Did, Declined> {
            let step = self.session.tick(ms, &mut self.room)?;
            Ok(self.did(step))
        }

        fn pass(&mut self, mut ms: u32) -> Did {
            let mut last = nothing();
            while ms > 0 {
                let tick = ms.min(1_000);
                last = self.tick(tick).unwrap();
                ms -= tick;
            }
            last
        }

        fn hear(&mut self, bytes: &[u8]) -> Did {
            bytes.iter().fold(nothing(), |_, &byte| self.byte(byte))
        }
    }

    fn nothing() -> Did {
        (vec![], None)
    }

    /// A 15h of ours that closes nothing.
    fn asked_again() -> Did {
        (vec![NAK], None)
    }

    fn handed_over(command: Command) -> Did {
        let mut room = [0; Session::ROOM];
        let length = command.write_to(&mut room);
        (room[..length].to_vec(), None)
    }

    fn opened(command: Command) -> Host {
        let mut host = Host::fresh();
        host.pass(5_200);
        assert_eq!(host.request(command), Ok(handed_over(command)));
        host
    }

    fn ten(exit: u8) -> Vec<u8> {
        let counted = Counted { chk: 10, exit, state: 0x30, rejects: 3 };
        answer(Code::PayUpper, counted, counted, 0x30)
    }

    fn unknown(sent: &[u8], how: Unknown) -> Did {
        (sent.to_vec(), Some(Closing::Unknown(how)))
    }

    #[test]
    fn quiet_5199_refused_5200_taken() {
        let mut host = Host::fresh();
        host.pass(5_199);
        assert_eq!(host.request(TEN), Err(Declined::Quiet));
        host.pass(1);
        assert!(host.request(TEN).is_ok());
    }

    #[test]
    fn a_stray_byte_starts_the_quiet_time_again() {
        let mut host = Host::fresh();
        host.pass(5_200);
        host.byte(0x55);
        host.pass(5_199);
        assert_eq!(host.request(TEN), Err(Declined::Quiet));
        host.pass(1);
        assert!(host.request(TEN).is_ok());
    }

    #[test]
    fn the_lowest_number_is_given() {
        let none = Command { code: Code::PayUpper, upper: 0, lower: 0 };
        assert_eq!(Host::fresh().request(none), Err(Declined::Range));
        let mut host = opened(TEN);
        assert_eq!(host.request(none), Err(Declined::Range));
        assert_eq!(host.request(TEN), Err(Declined::Open));
    }

    #[test]
    fn a_tick_is_1_to_1000() {
        let mut host = Host::fresh();
        for (ms, taken) in [(0, false), (1, true), (1_000, true), (1_001, false), (u32::MAX, false)] {
            assert_eq!(host.tick(ms).is_ok(), taken, "{ms}");
        }
        assert_eq!(host.session.quiet(), Some((1_001, 5_200)));
    }

    #[test]
    fn answered_in_full() {
        let mut host = opened(TEN);
        assert_eq!(host.byte(ACK), nothing());
        let step = host.hear(&ten(10));
        let paid = Closing::Answered(Answer::PaidUpper(Payment { exit: 10, rejects: 3 }), ErrorClass::Fine);
        assert_eq!(step, (vec![ACK], Some(paid)));
        let upper = host.session.account().upper;
        assert_eq!((upper.asked, upper.paid, upper.open, upper.rejected), (10, 10, 0, 3));
        assert_eq!(host.session.quiet(), Some((0, 5_200)));
    }

    #[test]
    fn paid_by_exit_and_not_by_chk() {
        for (exit, short, over) in [(9, 1, 0), (12, 0, 2), (0, 10, 0)] {
            let mut host = opened(TEN);
            host.byte(ACK);
            host.hear(&ten(exit));
            let upper = host.session.account().upper;
            assert_eq!((upper.paid, upper.short, upper.over), (u32::from(exit), short, over));
            assert!(upper.balances());
        }
    }

    #[test]
    fn sent_again_up_to_three_times_then_refused() {
        let mut host = opened(TEN);
        for _ in 0..3 {
            assert_eq!(host.byte(NAK), handed_over(TEN));
        }
        assert_eq!(host.byte(NAK), (vec![], Some(Closing::Refused)));
        assert_eq!(host.session.account().upper.refused, 10);
        assert_eq!(host.session.quiet(), Some((0, 5_200)));
    }

    #[test]
    fn each_hand_over_has_its_own_wait() {
        let mut host = opened(TEN);
        host.pass(5_049);
        host.byte(NAK);
        assert_eq!(host.pass(5_049), nothing());
        assert_eq!(host.pass(1), unknown(&[], Unknown::Silence));
    }

    #[test]
    fn any_other_first_byte_is_unknown_at_once() {
        for byte in [0x01, 0x00, 0x04, 0xFF] {
            let mut host = opened(TEN);
            assert_eq!(host.byte(byte), unknown(&[], Unknown::OtherByte));
            assert_eq!(host.session.account().upper.unknown, 10);
        }
    }

    #[test]
    fn after_an_unknown_closing_95200() {
        let mut host = opened(TEN);
        host.byte(0x00);
        host.pass(95_199);
        assert_eq!(host.request(TEN), Err(Declined::Quiet));
        host.byte(0x00);
        host.pass(95_199);
        assert_eq!(host.request(TEN), Err(Declined::Quiet));
        host.pass(1);
        assert!(host.request(TEN).is_ok());
        for _ in 0..4 {
            host.byte(NAK);
        }
        assert_eq!(host.session.quiet(), Some((0, 5_200)));
    }

    #[test]
    fn an_answer_starts_within_90000_and_skipped_bytes_do_not_restart_it() {
        let mut host = opened(TEN);
        host.byte(ACK);
        host.pass(50_000);
        host.hear(&[ACK, NAK, 0x50, 0x04]);
        assert_eq!(host.pass(39_999), nothing());
        let mut late = host.clone();
        assert_eq!(late.pass(1), unknown(&[], Unknown::NoStart));
        assert!(matches!(host.hear(&ten(10)).1, Some(Closing::Answered(..))));
    }

    #[test]
    fn a_frame_has_200_ms() {
        let mut host = opened(TEN);
        host.byte(ACK);
        let frame = ten(10);
        // from 01h, and not from the last byte
        host.hear(&frame[..4]);
        host.pass(150);
        host.hear(&frame[4..13]);
        host.pass(49);
        let mut late = host.clone();
        assert_eq!(late.pass(1), asked_again());
        assert_eq!(host.byte(frame[13]).0, [ACK]);
        // the excess is dropped: the 5,050 start at 0
        let mut long = opened(TEN);
        long.byte(ACK);
        long.byte(START);
        assert_eq!(long.tick(1_000), Ok(asked_again()));
        assert_eq!(long.pass(5_049), nothing());
        assert_eq!(long.pass(1), unknown(&[], Unknown::NoStartAgain));
    }

    #[test]
    fn bad_and_late_frames_share_three_15h() {
        let mut host = opened(TEN);
        host.byte(ACK);
        let mut wrong = ten(10);
        wrong[13] ^= 0x01;
        assert_eq!(host.hear(&wrong), asked_again());
        host.byte(START);
        assert_eq!(host.pass(200), asked_again());
        let mut third = host.clone();
        assert_eq!(host.hear(&wrong), unknown(&[NAK], Unknown::ThirdBad));
        third.byte(START);
        assert_eq!(third.pass(200), unknown(&[NAK], Unknown::ThirdLate));
        assert_eq!(third.session.account().upper.unknown, 10);
    }

    #[test]
    fn an_answer_to_another_code_is_bad() {
        let mut host = opened(TEN);
        host.byte(ACK);
        let counted = Counted { chk: 10, exit: 10, state: 0x30, rejects: 9 };
        let lower = answer(Code::PayLower, counted, counted, 0x30);
        assert_eq!(host.hear(&lower), asked_again());
        assert_eq!(host.session.account().lower.rejected, 0);
    }

    #[test]
    fn an_answer_is_full_at_its_length_and_not_at_03h() {
        let mut host = opened(Command { code: Code::Purge, upper: 0, lower: 0 });
        host.byte(ACK);
        // 01 50 02 44 error 03 check: with error 3Bh the check is 2Fh; a 01h or 03h inside is a byte like any other
        assert_eq!(host.hear(&[0x01, 0x01, 0x03, 0x44, 0x03, 0x03]), nothing());
        assert_eq!(host.byte(0x46).0, [NAK]);
    }

    #[test]
    fn a_test_adds_its_rejects_and_leaves_the_notes_alone() {
        let mut host = opened(Command { code: Code::TestLower, upper: 0, lower: 0 });
        host.byte(ACK);
        let counted = Counted { chk: 5, exit: 0, state: 0x31, rejects: 5 };
        assert_eq!(host.hear(&answer(Code::TestLower, counted, counted, 0x39)).0, [ACK]);
        assert_eq!(host.session.account().lower.rejected, 5);
        assert_eq!(host.session.account().lower.asked, 0);
        assert_eq!(host.session.account().upper.rejected, 0);
    }

    #[test]
    fn the_class_of_the_error_is_handed_up_and_no_sum_depends_on_it() {
        let counted = Counted { chk: 9, exit: 9, state: 0x30, rejects: 2 };
        let mut sums = Vec::new();
        for error in [0x30, 0x38, 0x3F, 0x4C, 0x3D, 0x37, 0x39] {
            let mut host = opened(TEN);
            host.byte(ACK);
            let paid = Closing::Answered(Answer::PaidUpper(Payment { exit: 9, rejects: 2 }), ErrorClass::of(error));
            assert_eq!(host.hear(&answer(Code::PayUpper, counted, counted, error)), (vec![ACK], Some(paid)));
            sums.push(host.session.account().clone());
        }
        assert!(sums.iter().all(|account| *account == sums[0]));
    }

    const OTHERS: [Code; 4] = [Code::Purge, Code::Status, Code::TestUpper, Code::TestLower];

    fn plain(code: Code) -> Command {
        Command { code, upper: 0, lower: 0 }
    }

    fn paying(code: Code) -> Command {
        let count = |pays: bool| if pays { 10 } else { 0 };
        Command { code, upper: count(code != Code::PayLower), lower: count(code != Code::PayUpper) }
    }

    /// A good answer to a command with this code, or 15h to each hand-over, or a byte that makes it unknown.
    fn closed(host: &mut Host, command: Command, how: Closing) {
        host.pass(95_200);
        assert_eq!(host.request(command), Ok(handed_over(command)));
        let counted = Counted { chk: 10, exit: 10, state: 0x30, rejects: 0 };
        let (_, closing) = match how {
            Closing::Answered(..) => host.hear(&[vec![ACK], answer(command.code, counted, counted, 0x30)].concat()),
            Closing::Refused => host.hear(&[NAK; 4]),
            Closing::Unknown(_) => host.byte(0x00),
        };
        match how {
            Closing::Answered(..) => assert!(matches!(closing, Some(Closing::Answered(..)))),
            _ => assert_eq!(closing, Some(how)),
        }
    }

    const ANSWERED: Closing = Closing::Answered(Answer::Purged, ErrorClass::Fine);
    const UNKNOWN: Closing = Closing::Unknown(Unknown::OtherByte);

    /// Whether a paying request gets number 7, once the line has been quiet for long.
    fn is_stopped(host: &Host) -> bool {
        let mut host = host.clone();
        host.pass(95_200);
        match host.request(TEN) {
            Ok(_) => false,
            Err(why) => {
                assert_eq!(why.number(), 7);
                true
            }
        }
    }

    fn after(closings: &[(Command, Closing)]) -> Host {
        let mut host = Host::fresh();
        for &(command, how) in closings {
            closed(&mut host, command, how);
        }
        host
    }

    #[test]
    fn two_paying_requests_that_closed_unknown_stop_every_payout() {
        assert!(!is_stopped(&after(&[(TEN, UNKNOWN)])));
        for one in [Code::PayUpper, Code::PayLower, Code::PayBoth] {
            for other in [Code::PayUpper, Code::PayLower, Code::PayBoth] {
                let mut host = after(&[(paying(one), UNKNOWN), (paying(other), UNKNOWN)]);
                let before = host.session.account.clone();
                host.pass(95_200);
                for code in [Code::PayUpper, Code::PayLower, Code::PayBoth] {
                    assert_eq!(host.request(paying(code)), Err(Declined::Stopped));
                }
                assert_eq!(host.session.account, before);
                for code in OTHERS {
                    assert!(host.clone().request(plain(code)).is_ok());
                }
            }
        }
    }

    #[test]
    fn every_way_to_an_unknown_closing_counts() {
        let mut bad = ten(10);
        bad[13] ^= 1;
        let late = |host: &mut Host| {
            host.byte(START);
            host.pass(200)
        };
        for way in 0..6 {
            let mut host = after(&[(TEN, UNKNOWN)]);
            host.pass(95_200);
            host.request(TEN).unwrap();
            if way > 1 {
                host.byte(ACK);
            }
            let (_, closing) = match way {
                0 => host.byte(START),
                1 => host.pass(5_050),
                2 => host.pass(90_000),
                3 => {
                    host.hear(&bad);
                    host.pass(5_050)
                }
                4 => host.hear(&[&bad[..], &bad, &bad].concat()),
                _ => {
                    late(&mut host);
                    late(&mut host);
                    late(&mut host)
                }
            };
            let ways = [
                Unknown::OtherByte,
                Unknown::Silence,
                Unknown::NoStart,
                Unknown::NoStartAgain,
                Unknown::ThirdBad,
                Unknown::ThirdLate,
            ];
            assert_eq!(closing, Some(Closing::Unknown(ways[way])));
            assert!(is_stopped(&host));
        }
    }

    #[test]
    fn an_answered_or_refused_payout_breaks_the_succession() {
        for how in [ANSWERED, Closing::Refused] {
            for code in [Code::PayUpper, Code::PayLower, Code::PayBoth] {
                let mut host = after(&[(TEN, UNKNOWN), (paying(code), how), (TEN, UNKNOWN)]);
                assert!(!is_stopped(&host));
                closed(&mut host, TEN, UNKNOWN);
                assert!(is_stopped(&host));
            }
        }
    }

    #[test]
    fn other_commands_neither_break_nor_lengthen_it_nor_end_the_stop() {
        for code in OTHERS {
            for how in [ANSWERED, Closing::Refused, UNKNOWN] {
                let other = (plain(code), how);
                assert!(!is_stopped(&after(&[other, other, other])));
                assert!(!is_stopped(&after(&[(TEN, UNKNOWN), other, other])));
                assert!(is_stopped(&after(&[(TEN, UNKNOWN), other, (TEN, UNKNOWN)])));
                assert!(is_stopped(&after(&[(TEN, UNKNOWN), (TEN, UNKNOWN), other, other])));
            }
        }
    }

    #[test]
    fn a_declined_request_neither_breaks_nor_lengthens_it() {
        let none = Command { code: Code::PayUpper, upper: 0, lower: 0 };
        let mut host = after(&[(TEN, UNKNOWN)]);
        assert_eq!(host.request(none), Err(Declined::Range));
        assert_eq!(host.request(TEN), Err(Declined::Quiet));
        assert!(!is_stopped(&host));
        host.pass(95_200);
        host.request(TEN).unwrap();
        assert_eq!(host.request(TEN), Err(Declined::Open));
        host.byte(0x00);
        host.pass(95_200);
        for _ in 0..3 {
            assert_eq!(host.request(TEN), Err(Declined::Stopped));
        }
        assert!(is_stopped(&host));
    }

    #[test]
    fn the_numbers_before_7_hide_it() {
        let mut host = after(&[(TEN, UNKNOWN), (TEN, UNKNOWN)]);
        let none = Command { code: Code::PayUpper, upper: 0, lower: 0 };
        assert_eq!(host.session.request(TEN, &mut [0; 15]), Err(Declined::Room));
        assert_eq!(host.request(none), Err(Declined::Range));
        assert_eq!(host.request(TEN), Err(Declined::Quiet));
        host.pass(95_199);
        assert_eq!(host.request(TEN), Err(Declined::Quiet));
        host.pass(1);
        assert_eq!(host.request(TEN), Err(Declined::Stopped));
        assert_eq!(host.request(none), Err(Declined::Range));
        let mut spent = host.clone();
        spent.session.accepted = Session::COMMANDS;
        assert_eq!(spent.request(TEN), Err(Declined::Spent));
        assert!(host.request(plain(Code::Status)).is_ok());
        assert_eq!(host.request(TEN), Err(Declined::Open));
    }

    #[test]
    fn clear_starts_the_succession_afresh_and_changes_nothing_else() {
        for unknowns in 0..3 {
            let mut host = after(&vec![(TEN, UNKNOWN); unknowns]);
            host.pass(40_000);
            let (quiet, account) = (host.session.quiet(), host.session.account.clone());
            assert_eq!(host.session.clear(), Ok(()));
            assert_eq!(host.session.clear(), Ok(()));
            assert_eq!((host.session.quiet(), &host.session.account), (quiet, &account));
            if unknowns > 0 {
                // neither does the quiet time begin anew, nor are the 95,200 ms shortened
                host.pass(55_199);
                assert_eq!(host.request(TEN), Err(Declined::Quiet));
                host.pass(1);
                assert!(host.clone().request(TEN).is_ok());
            }
            closed(&mut host, TEN, UNKNOWN);
            assert!(!is_stopped(&host));
            closed(&mut host, TEN, UNKNOWN);
            assert!(is_stopped(&host));
        }
    }

    #[test]
    fn clear_is_refused_with_3_while_a_command_is_open() {
        for code in [Code::Status, Code::TestLower] {
            let mut host = after(&[(TEN, UNKNOWN), (TEN, UNKNOWN)]);
            host.pass(95_200);
            host.request(plain(code)).unwrap();
            let before = format!("{:?}", host.session);
            assert_eq!(host.session.clear(), Err(Declined::Open));
            assert_eq!(format!("{:?}", host.session), before);
            host.hear(&[NAK; 4]);
            assert!(is_stopped(&host));
            assert_eq!(host.session.clear(), Ok(()));
            assert!(!is_stopped(&host));
        }
        assert_eq!(opened(TEN).session.clear(), Err(Declined::Open));
    }

    #[test]
    fn a_room_under_16_bytes_is_refused_with_1_and_reaches_nothing() {
        let mut host = opened(TEN);
        host.byte(ACK);
        let room = &mut [0xEE; 15];
        let before = format!("{:?}", host.session);
        assert_eq!(host.session.request(TEN, room), Err(Declined::Room));
        assert_eq!(host.session.byte(START, room), Err(Declined::Room));
        assert_eq!(host.session.tick(0, room), Err(Declined::Room));
        assert_eq!((format!("{:?}", host.session), *room), (before, [0xEE; 15]));
        assert_eq!(Declined::Room.number(), 1);
    }
}
