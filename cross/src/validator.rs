//! "The validator session": one command, at most one answer, and the bills that were stacked.

use crate::bill_table::Table;
use crate::ccnet_frame::{self, Class, Place, LONGEST, SHORTEST, SYNC, TYPES};
use crate::dispenser::{is_tick, large_enough, Declined};

/// The commands that a recording can ask for: those without data. ENABLE BILL TYPES (34h) has data and is in no recording.
#[derive(Clone, Copy, Debug, PartialEq, Eq)]
pub enum Command {
    Reset,
    Poll,
    Stack,
    Return,
    Hold,
    /// GET BILL TABLE.
    Table,
}

impl Command {
    pub const ALL: [Command; 6] =
        [Command::Reset, Command::Poll, Command::Stack, Command::Return, Command::Hold, Command::Table];

    pub fn byte(self) -> u8 {
        match self {
            Command::Reset => 0x30,
            Command::Poll => 0x33,
            Command::Stack => 0x35,
            Command::Return => 0x36,
            Command::Hold => 0x38,
            Command::Table => 0x41,
        }
    }

    #[inline]
    pub fn of(number: u32) -> Option<Command> {
        match number {
            0x30 => Some(Command::Reset),
            0x33 => Some(Command::Poll),
            0x35 => Some(Command::Stack),
            0x36 => Some(Command::Return),
            0x38 => Some(Command::Hold),
            0x41 => Some(Command::Table),
            _ => None,
        }
    }
}

/// How a command was closed.
#[derive(Clone, Copy, Debug, PartialEq, Eq)]
pub enum Closing {
    Acknowledged,
    RefusedByNak,
    Illegal,
    /// "any other body gets an ACK frame"
    Answered(Class),
    Damaged(Damage),
    Silent,
}

/// What was wrong with a frame. The rules make no difference between them; the reach table does.
#[derive(Clone, Copy, Debug, PartialEq, Eq)]
pub enum Damage {
    Address,
    Length,
    Check,
    Late,
}

/// What became of a stacked bill that a POLL reported.
#[derive(Clone, Copy, Debug, PartialEq, Eq)]
pub enum Bill {
    Credited,
    Repeated,
}

/// "how many bytes it put at the room's start and which closing it made, if any"
#[derive(Clone, Copy, Debug, PartialEq, Eq)]
pub struct Step {
    pub put: usize,
    pub closing: Option<Closing>,
    pub bill: Option<Bill>,
}

const NOTHING: Step = Step { put: 0, closing: None, bill: None };

/// "A body of one byte 00h is ACK, FFh is NAK": what we reply.
const ACK: u8 = 0x00;
const NAK: u8 = 0xFF;

/// What the session waits for.
#[derive(Clone, Copy, Debug, PartialEq, Eq)]
pub enum Phase {
    /// Nothing open: the wait is the quiet time.
    Idle,
    /// The answer's 02h is awaited.
    Start,
    /// 02h came: the frame is gathered.
    Inside,
}

#[derive(Clone, Debug)]
pub struct Session {
    phase: Phase,
    waited: u32,
    limit: u32,
    command: Command,
    gathered: usize,
    accepted: u32,
    /// "the last listed poll answer received to a POLL", where it was one about a bill.
    last: Class,
    bills: [u32; TYPES],
    table: Table,
    /// "The gathering store is 255 bytes, all zero when fresh and again after each closing."
    store: [u8; LONGEST],
}

impl Session {
    pub const QUIET: u32 = 20;
    pub const START: u32 = 10;
    pub const FRAME: u32 = 400;
    pub const ADDRESS: u8 = 0x03;
    pub const COMMANDS: u32 = 1_000_000;
    pub const ROOM: usize = LONGEST;

    pub fn fresh() -> Session {
        Session {
            phase: Phase::Idle,
            waited: 0,
            limit: Session::QUIET,
            command: Command::Reset,
            gathered: 0,
            accepted: 0,
            last: Class::Unknown,
            bills: [0; TYPES],
            table: Table::fresh(),
            store: [0; LONGEST],
        }
    }

    /// How many bills of each type were stacked.
    pub fn bills(&self) -> &[u32; TYPES] {
        &self.bills
    }

    /// "the last table read holds"
    pub fn table(&self) -> &Table {
        &self.table
    }

    pub fn phase(&self) -> Phase {
        self.phase
    }

    pub fn is_open(&self) -> bool {
        self.phase != Phase::Idle
    }

    pub fn request(&mut self, command: Command, room: &mut [u8]) -> Result<Step, Declined> {
        large_enough(room, Session::ROOM)?;
        if self.is_open() {
            return Err(Declined::Open);
        }
        if self.waited < self.limit {
            return Err(Declined::Quiet);
        }
        if self.accepted >= Session::COMMANDS {
            return Err(Declined::Spent);
        }
        self.accepted += 1;
        self.command = command;
        self.wait(Phase::Start, Session::START);
        Ok(Step { put: frame(command.byte(), room), ..NOTHING })
    }

    #[inline]
    pub fn byte(&mut self, byte: u8, room: &mut [u8]) -> Result<Step, Declined> {
        large_enough(room, Session::ROOM)?;
        Ok(match self.phase {
            Phase::Idle => {
                self.waited = 0;
                NOTHING
            }
            Phase::Start => {
                if byte == SYNC {
                    self.store[0] = byte;
                    self.gathered = 1;
                    self.wait(Phase::Inside, Session::FRAME);
                }
                NOTHING
            }
            Phase::Inside => {
                self.store[self.gathered] = byte;
                self.gathered += 1;
                self.inside(byte, room)
            }
        })
    }

    /// "A wrong address (not 03h) or length byte, at that byte, a wrong check or a late frame .. closes as damaged".
    #[inline]
    fn inside(&mut self, byte: u8, room: &mut [u8]) -> Step {
        match self.gathered {
            2 if byte != Session::ADDRESS => self.damaged(Damage::Address, room),
            3 if usize::from(byte) < SHORTEST => self.damaged(Damage::Length, room),
            1..=3 => NOTHING,
            gathered if gathered < usize::from(self.store[2]) => NOTHING,
            _ => self.judge(room),
        }
    }

    fn judge(&mut self, room: &mut [u8]) -> Step {
        let Ok(body) = ccnet_frame::body(&self.store[..self.gathered]) else {
            return self.damaged(Damage::Check, room);
        };
        let class = ccnet_frame::classify(body);
        let class = match class {
            Class::Ack | Class::Nak | Class::Illegal => class,
            _ if self.command == Command::Table => self.described(Table::read(body)),
            _ => class,
        };
        match class {
            Class::Ack => self.close(0, Closing::Acknowledged),
            Class::Nak => self.close(0, Closing::RefusedByNak),
            Class::Illegal => self.close(0, Closing::Illegal),
            Class::State | Class::Bill(..) | Class::Table | Class::Unknown => {
                let bill = if self.command == Command::Poll { self.polled(class) } else { None };
                Step { bill, ..self.close(frame(ACK, room), Closing::Answered(class)) }
            }
        }
    }

    /// The answer to GET BILL TABLE. "A body over 120 bytes is unknown".
    fn described(&mut self, table: Option<Table>) -> Class {
        match table {
            Some(table) => {
                self.table = table;
                Class::Table
            }
            None => Class::Unknown,
        }
    }

    /// "81h with type y adds one bill of type y, unless the last listed poll answer received to a POLL was the same two bytes"
    fn polled(&mut self, class: Class) -> Option<Bill> {
        if class == Class::Unknown {
            return None;
        }
        let repeated = class == self.last;
        self.last = class;
        match class {
            Class::Bill(Place::Stacked, _) if repeated => Some(Bill::Repeated),
            Class::Bill(Place::Stacked, bill) => {
                self.bills[usize::from(bill)] += 1;
                Some(Bill::Credited)
            }
            _ => None,
        }
    }

    #[inline]
    pub fn tick(&mut self, ms: u32, room: &mut [u8]) -> Result<Step, Declined> {
        large_enough(room, Session::ROOM)?;
        if !is_tick(ms) {
            return Err(Declined::Tick);
        }
        self.waited = self.waited.saturating_add(ms);
        if self.waited < self.limit {
            return Ok(NOTHING);
        }
        Ok(match self.phase {
            Phase::Idle => NOTHING,
            Phase::Start => self.close(0, Closing::Silent),
            Phase::Inside => self.damaged(Damage::Late, room),
        })
    }

    /// "sends a NAK frame and closes as damaged"
    fn damaged(&mut self, damage: Damage, room: &mut [u8]) -> Step {
        self.close(frame(NAK, room), Closing::Damaged(damage))
    }

    fn close(&mut self, put: usize, closing: Closing) -> Step {
        self.store[..self.gathered].fill(0);
        self.gathered = 0;
        self.wait(Phase::Idle, Session::QUIET);
        Step { put, closing: Some(closing), bill: None }
    }

    fn wait(&mut self, phase: Phase, limit: u32) {
        self.phase = phase;
        self.waited = 0;
        self.limit = limit;
    }
}

/// Puts the frame of a one-byte body at the room's start.
fn frame(body: u8, room: &mut [u8]) -> usize {
    ccnet_frame::write_to(Session::ADDRESS, &[body], room)
}

impl Default for Session {
    fn default() -> Session {
        Session::fresh()
    }
}

#[cfg(test)]
mod tests {
    use super::*;
    use crate::ccnet_frame::write;

    /// A host with a room.
    #[derive(Clone)]
    struct Host {
        session: Session,
        room: [u8; Session::ROOM],
    }

    impl Host {
        fn fresh() -> Host {
            Host { session: Session::fresh(), room: [0xEE; Session::ROOM] }
        }

        fn request(&mut self, command: Command) -> Result<Step, Declined> {
            self.session.request(command, &mut self.room)
        }

        fn byte(&mut self, byte: u8) -> Step {
            self.session.byte(byte, &mut self.room).unwrap()
        }

        fn tick(&mut self, ms: u32) -> Result<Step, Declined> {
            self.session.tick(ms, &mut self.room)
        }

        fn hear(&mut self, bytes: &[u8]) -> Step {
            bytes.iter().fold(NOTHING, |_, &byte| self.byte(byte))
        }

        fn ask(&mut self, command: Command) {
            self.tick(20).unwrap();
            self.request(command).unwrap();
        }

        /// Asks, and hears a frame with the body.
        fn exchange(&mut self, command: Command, body: &[u8]) -> Step {
            self.ask(command);
            self.hear(&write(3, body).unwrap())
        }

        /// What a step sent.
        fn sent(&self, step: Step) -> &[u8] {
            &self.room[..step.put]
        }
    }

    /// A closing as it is where nothing is credited; an answer and a damaged frame get a frame of six bytes.
    fn closed(closing: Closing) -> Step {
        let replied = matches!(closing, Closing::Answered(_) | Closing::Damaged(_));
        Step { put: if replied { 6 } else { 0 }, closing: Some(closing), bill: None }
    }

    fn all_zero(host: &Host) -> bool {
        host.session.store.iter().all(|&byte| byte == 0)
    }

    #[test]
    fn quiet_19_refused_20_taken() {
        let mut host = Host::fresh();
        host.tick(19).unwrap();
        assert_eq!(host.request(Command::Poll), Err(Declined::Quiet));
        host.tick(1).unwrap();
        assert!(host.request(Command::Poll).is_ok());
        assert_eq!(host.request(Command::Poll), Err(Declined::Open));
    }

    #[test]
    fn quiet_counts_from_the_last_byte_and_from_the_closing() {
        let mut host = Host::fresh();
        host.tick(20).unwrap();
        host.byte(0x02);
        host.tick(19).unwrap();
        assert_eq!(host.request(Command::Poll), Err(Declined::Quiet));
        host.tick(1).unwrap();
        host.request(Command::Poll).unwrap();
        assert_eq!(host.tick(1_000), Ok(closed(Closing::Silent)));
        host.tick(19).unwrap();
        assert_eq!(host.request(Command::Poll), Err(Declined::Quiet));
    }

    #[test]
    fn an_answer_starts_within_10_ms() {
        let mut host = Host::fresh();
        host.ask(Command::Poll);
        assert_eq!(host.tick(9), Ok(NOTHING));
        host.hear(&[0x06, 0x03, 0xFF]); // skipped, and the wait goes on
        let mut late = host.clone();
        assert_eq!(late.tick(1), Ok(closed(Closing::Silent)));
        assert_eq!(host.hear(&write(3, &[0x14]).unwrap()).closing, Some(Closing::Answered(Class::State)));
        assert!(all_zero(&host));
    }

    #[test]
    fn a_frame_has_400_ms() {
        let mut host = Host::fresh();
        host.ask(Command::Poll);
        let frame = write(3, &[0x14]).unwrap();
        // from 02h, and not from the last byte
        host.hear(&frame[..3]);
        assert_eq!(host.tick(300), Ok(NOTHING));
        host.hear(&frame[3..5]);
        assert_eq!(host.tick(99), Ok(NOTHING));
        let mut late = host.clone();
        assert_eq!(late.tick(1), Ok(closed(Closing::Damaged(Damage::Late))));
        assert!(all_zero(&late));
        assert_eq!(host.byte(frame[5]).closing, Some(Closing::Answered(Class::State)));
    }

    #[test]
    fn damage_shows_at_its_byte() {
        let mut host = Host::fresh();
        host.ask(Command::Poll);
        assert_eq!(host.hear(&[0x02, 0x04]), closed(Closing::Damaged(Damage::Address)));
        host.ask(Command::Poll);
        assert_eq!(host.hear(&[0x02, 0x03, 0x05]), closed(Closing::Damaged(Damage::Length)));
        host.ask(Command::Poll);
        assert_eq!(host.hear(&[0x02, 0x03, 0x06, 0x33, 0xDA, 0x80]), closed(Closing::Damaged(Damage::Check)));
        host.ask(Command::Poll);
        let mut longest = write(3, &[0x33; 250]).unwrap();
        assert_eq!(longest.len(), 255);
        assert_eq!(host.hear(&longest), closed(Closing::Answered(Class::Unknown)));
        host.ask(Command::Poll);
        longest[100] ^= 1;
        assert_eq!(host.hear(&longest), closed(Closing::Damaged(Damage::Check)));
        assert!(all_zero(&host));
    }

    #[test]
    fn what_closes_without_a_reply() {
        let mut host = Host::fresh();
        assert_eq!(host.exchange(Command::Reset, &[0x00]), closed(Closing::Acknowledged));
        assert_eq!(host.exchange(Command::Stack, &[0xFF]), closed(Closing::RefusedByNak));
        assert_eq!(host.exchange(Command::Hold, &[0x30]), closed(Closing::Illegal));
        assert_eq!(host.exchange(Command::Poll, &[0x00]), closed(Closing::Acknowledged));
    }

    #[test]
    fn type_24_unknown_23_credited() {
        let mut host = Host::fresh();
        assert_eq!(host.exchange(Command::Poll, &[0x81, 24]), closed(Closing::Answered(Class::Unknown)));
        assert_eq!(host.exchange(Command::Poll, &[0x81, 23]).bill, Some(Bill::Credited));
        assert_eq!(host.session.bills()[23], 1);
        assert_eq!(host.session.bills().iter().sum::<u32>(), 1);
    }

    #[test]
    fn a_repeated_report_is_credited_once() {
        let stacked = [0x81, 3];
        let mut host = Host::fresh();
        host.exchange(Command::Poll, &stacked);
        assert_eq!(host.exchange(Command::Poll, &stacked).bill, Some(Bill::Repeated));
        // unknown bodies, ACK, NAK, illegal, damage, silence, RESET and answers to other commands do not come between
        host.exchange(Command::Poll, &[0x81, 24]);
        host.exchange(Command::Poll, &[0x00]);
        host.exchange(Command::Poll, &[0xFF]);
        host.exchange(Command::Poll, &[0x30]);
        host.ask(Command::Poll);
        host.hear(&[0x02, 0x05]);
        host.ask(Command::Poll);
        host.tick(10).unwrap();
        host.exchange(Command::Reset, &[0x00]);
        host.exchange(Command::Stack, &[0x14]);
        host.exchange(Command::Hold, &[0x81, 4]);
        assert_eq!(host.exchange(Command::Poll, &stacked).bill, Some(Bill::Repeated));
        // busy does
        host.exchange(Command::Poll, &[0x15]);
        assert_eq!(host.exchange(Command::Poll, &stacked).bill, Some(Bill::Credited));
        // and so does another type, or the same type elsewhere
        host.exchange(Command::Poll, &[0x81, 4]);
        host.exchange(Command::Poll, &stacked);
        host.exchange(Command::Poll, &[0x80, 3]);
        host.exchange(Command::Poll, &stacked);
        assert_eq!((host.session.bills()[3], host.session.bills()[4]), (4, 1));
    }

    #[test]
    fn stacked_in_answer_to_another_command_is_not_credited() {
        let mut host = Host::fresh();
        let step = host.exchange(Command::Stack, &[0x81, 3]);
        assert_eq!(step, closed(Closing::Answered(Class::Bill(Place::Stacked, 3))));
        assert_eq!(host.session.bills()[3], 0);
        assert_eq!(host.exchange(Command::Poll, &[0x81, 3]).bill, Some(Bill::Credited));
    }

    #[test]
    fn the_answer_to_get_bill_table_is_kept() {
        let mut host = Host::fresh();
        let answered = closed(Closing::Answered(Class::Table));
        let body: Vec<u8> = (1..=120).collect();
        host.tick(20).unwrap();
        let step = host.request(Command::Table).unwrap();
        assert_eq!(host.sent(step), write(3, &[0x41]).unwrap());
        assert_eq!(host.hear(&write(3, &body).unwrap()), answered);
        assert_eq!(host.session.table().bytes()[..], body);
        // 121 bytes are unknown; ACK, NAK and illegal close as ever; nothing else is a table
        assert_eq!(host.exchange(Command::Table, &[7; 121]), closed(Closing::Answered(Class::Unknown)));
        assert_eq!(host.exchange(Command::Table, &[0x00]), closed(Closing::Acknowledged));
        assert_eq!(host.exchange(Command::Table, &[0xFF]), closed(Closing::RefusedByNak));
        assert_eq!(host.exchange(Command::Table, &[0x30]), closed(Closing::Illegal));
        assert_eq!(host.exchange(Command::Poll, &[7; 120]), closed(Closing::Answered(Class::Unknown)));
        assert_eq!(host.exchange(Command::Reset, &[7; 5]), closed(Closing::Answered(Class::Unknown)));
        host.ask(Command::Table);
        host.hear(&[0x02, 0x04]);
        host.ask(Command::Table);
        host.tick(10).unwrap();
        assert_eq!(host.session.table().bytes()[..], body);
        // unsent bytes count as zero
        assert_eq!(host.exchange(Command::Table, &[9, 9]), answered);
        assert_eq!(host.session.table().bytes()[..3], [9, 9, 0]);
        assert!(host.session.table().bytes()[2..].iter().all(|&byte| byte == 0));
        assert_eq!(host.exchange(Command::Table, &[0x00, 0x00]), answered);
        assert_eq!(host.session.table(), &Table::fresh());
    }

    #[test]
    fn a_table_that_looks_like_a_poll_answer_is_a_table() {
        let mut host = Host::fresh();
        host.exchange(Command::Poll, &[0x81, 3]);
        for body in [&[0x14][..], &[0x81, 3], &[0x81, 4], &[0x1B, 0x00]] {
            assert_eq!(host.exchange(Command::Table, body), closed(Closing::Answered(Class::Table)));
            assert_eq!(&host.session.table().bytes()[..body.len()], body);
        }
        // it is neither credited nor remembered
        assert_eq!((host.session.bills()[3], host.session.bills()[4]), (1, 0));
        assert_eq!(host.exchange(Command::Poll, &[0x81, 3]).bill, Some(Bill::Repeated));
    }

    #[test]
    fn what_is_sent_stands_at_the_rooms_start_and_nowhere_else() {
        let mut host = Host::fresh();
        host.tick(20).unwrap();
        let step = host.request(Command::Stack).unwrap();
        assert_eq!(host.sent(step), write(3, &[0x35]).unwrap());
        let step = host.hear(&write(3, &[0x14]).unwrap());
        assert_eq!(host.sent(step), write(3, &[0x00]).unwrap());
        host.ask(Command::Poll);
        let step = host.hear(&[0x02, 0x04]);
        assert_eq!(host.sent(step), write(3, &[0xFF]).unwrap());
        host.ask(Command::Poll);
        host.byte(SYNC);
        let step = host.tick(400).unwrap();
        assert_eq!(host.sent(step), write(3, &[0xFF]).unwrap());
        assert!(host.room[6..].iter().all(|&byte| byte == 0xEE));
    }

    #[test]
    fn a_room_under_255_bytes_is_refused_with_1_and_reaches_nothing() {
        let mut host = Host::fresh();
        host.ask(Command::Poll);
        let room = &mut [0xEE; 254];
        let before = format!("{:?}", host.session);
        assert_eq!(host.session.request(Command::Poll, room), Err(Declined::Room));
        assert_eq!(host.session.byte(SYNC, room), Err(Declined::Room));
        assert_eq!(host.session.tick(0, room), Err(Declined::Room));
        assert_eq!((format!("{:?}", host.session), *room), (before, [0xEE; 254]));
    }
}
