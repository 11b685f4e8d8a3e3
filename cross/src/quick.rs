//! A bench on which payouts follow one another as quickly as the line allows: recordings with more of them than are kept (Q-6 of
//! document 02). Other things happen between them that are not kept.

use crate::bench::counted;
use crate::dispenser::{Phase, ACK, NAK, START};
use crate::dispenser_frame::{answer, Code, Command};
use crate::error_class::LISTED;
use crate::random::Random;
use crate::recording::Record;
use crate::replay::{Bench, Played, Rooms};

/// A recording in which so many payouts are accepted, and the last is left open or not.
pub fn recording(seed: u64, payouts: u32, left_open: bool) -> Vec<u8> {
    let mut quick =
        Quick { random: Random::new(seed), host: Bench::fresh(), rooms: Rooms::new(), recorded: Vec::new() };
    for payout in 1..=payouts {
        quick.between();
        let command = quick.taken();
        if left_open && payout == payouts {
            quick.begun(command);
        } else {
            quick.through(command);
        }
    }
    if !left_open {
        quick.between();
    }
    quick.recorded
}

struct Quick {
    random: Random,
    host: Bench,
    rooms: Rooms,
    recorded: Vec<u8>,
}

impl Quick {
    /// Records what happens, and says whether the host took it.
    fn play(&mut self, record: Record) -> bool {
        record.write(&mut self.recorded);
        !matches!(self.host.play(record, &mut self.rooms), Played::Declined(_))
    }

    fn say(&mut self, bytes: &[u8]) {
        for &byte in bytes {
            self.play(Record::DispenserByte(byte));
        }
    }

    fn pass(&mut self, mut ms: u32) {
        while ms > 0 {
            let tick = ms.min(1_000);
            self.play(Record::Tick(tick));
            ms -= tick;
        }
    }

    fn is_open(&self) -> bool {
        self.host.dispenser.phase() != Phase::Idle
    }

    /// Lets the line be quiet for as long as is needed.
    fn quiet(&mut self) {
        if let Some((quiet, needed)) = self.host.dispenser.quiet() {
            self.pass(needed.saturating_sub(quiet));
        }
    }

    /// A payout that can be sent.
    fn payout(&mut self) -> Command {
        let code = self.random.pick(&[Code::PayUpper, Code::PayLower, Code::PayBoth]);
        let mut count = |pays: bool| match self.random.below(6) {
            _ if !pays => 0,
            0 => self.random.pick(&[1, 2, 59, 60]),
            _ => self.random.within(1, 60),
        };
        Command { code, upper: count(code != Code::PayLower), lower: count(code != Code::PayUpper) }
    }

    /// A payout that is accepted. Where payouts are stopped there is a clear first.
    fn taken(&mut self) -> Command {
        self.quiet();
        let command = self.payout();
        if self.host.dispenser.is_stopped() {
            if self.random.once_in(2) {
                self.play(Record::Request(command));
            }
            self.play(Record::Clear);
        }
        let taken = self.play(Record::Request(command));
        assert!(taken, "the line is quiet, and there is no stop");
        self.while_open();
        command
    }

    /// What may happen between two payouts and is not kept.
    fn between(&mut self) {
        let command = self.payout();
        match self.random.below(40) {
            0 => drop(self.play(Record::Clear)),
            1 => self.say(&[0x00]),
            2..=3 => {
                // too early
                self.play(Record::Request(command));
            }
            4 => {
                let command = if self.random.once_in(2) {
                    Command { upper: 61, lower: 61, ..command }
                } else {
                    Command { upper: 0, lower: 0, ..command }
                };
                self.play(Record::Request(command));
            }
            5..=9 => {
                let code = self.random.pick(&[Code::Purge, Code::Status, Code::TestUpper, Code::TestLower]);
                let other = Command { code, upper: 0, lower: 0 };
                self.quiet();
                self.play(Record::Request(other));
                self.while_open();
                self.through(other);
            }
            _ => {}
        }
    }

    /// What may happen while a command is open, and is declined.
    fn while_open(&mut self) {
        let command = self.payout();
        match self.random.below(40) {
            0 => drop(self.play(Record::Clear)),
            1 => drop(self.play(Record::Request(command))),
            _ => {}
        }
    }

    /// 15h to some hand-overs, of which the last is not the fourth.
    fn not_at_once(&mut self) {
        let times = self.random.pick(&[0, 0, 0, 0, 0, 0, 1, 2, 3]);
        self.say(&[NAK; 3][..times]);
    }

    /// The open command from its first hand-over to its closing.
    fn through(&mut self, command: Command) {
        self.not_at_once();
        match self.random.below(24) {
            0..=1 => self.lost(command),
            2..=4 => {
                while self.is_open() {
                    self.say(&[NAK]);
                }
            }
            _ => {
                self.say(&[ACK]);
                for _ in 0..self.random.pick(&[0, 0, 0, 0, 0, 0, 0, 1, 2]) {
                    self.bad(command);
                }
                let answer = self.answer(command);
                self.say(&answer);
            }
        }
        assert!(!self.is_open(), "it is closed");
    }

    /// Lost, in one of the ways to an unknown closing.
    fn lost(&mut self, command: Command) {
        match self.random.below(8) {
            0..=1 => {
                let byte = self.random.pick(&[0x00, 0x01, 0x04, 0x05, 0x86, 0xFF]);
                return self.say(&[byte]);
            }
            2..=3 => return self.pass(6_000),
            4 => {
                self.say(&[ACK]);
                return self.pass(90_000);
            }
            _ => self.say(&[ACK]),
        }
        for _ in 0..self.random.within(1, 3) {
            if self.is_open() {
                self.bad(command);
            }
        }
        if self.is_open() {
            self.pass(6_000);
        }
    }

    /// An answer that is bad or late.
    fn bad(&mut self, command: Command) {
        if self.random.once_in(2) {
            self.say(&[START]);
            return self.pass(200);
        }
        let mut answer = self.answer(command);
        let last = answer.len() - 1;
        answer[last] ^= 1 << self.random.below(8);
        self.say(&answer);
    }

    /// The open command up to some place before its closing.
    fn begun(&mut self, command: Command) {
        let times = self.random.below(4) as usize;
        self.say(&[NAK; 3][..times]);
        if self.random.once_in(2) {
            self.say(&[ACK]);
            if self.random.once_in(3) {
                self.bad(command);
            }
            let answer = self.answer(command);
            let some = self.random.below(answer.len() as u32) as usize;
            self.say(&answer[..some]);
        }
        self.while_open();
    }

    fn answer(&mut self, command: Command) -> Vec<u8> {
        let (upper, lower) = (counted(&mut self.random, command.upper), counted(&mut self.random, command.lower));
        answer(command.code, upper, lower, self.random.pick(&LISTED))
    }
}

#[cfg(test)]
mod tests {
    use super::*;
    use crate::recording::records;

    #[test]
    fn so_many_payouts_are_accepted() {
        for (seed, payouts) in [(1, 0), (2, 1), (3, 31), (4, 32), (5, 33), (6, 64), (7, 65), (8, 100)] {
            let left_open = seed % 2 == 0;
            let bytes = recording(seed, payouts, left_open);
            let (mut host, mut rooms, mut taken) = (Bench::fresh(), Rooms::new(), 0);
            for record in records(&bytes).flatten() {
                let played = host.play(record, &mut rooms);
                let pays = matches!(record, Record::Request(command) if command.code.pays());
                taken += u32::from(pays && !matches!(played, Played::Declined(_)));
            }
            assert_eq!(taken, payouts);
            let account = host.dispenser.account();
            assert!(account.upper.balances() && account.lower.balances());
            assert_eq!(account.kept.all().count(), payouts.min(32) as usize);
            assert_eq!(host.dispenser.phase() != Phase::Idle, left_open && payouts > 0);
        }
    }
}
