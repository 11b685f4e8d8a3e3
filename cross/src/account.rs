//! "The account": what became of the notes that were asked for, cassette by cassette.

use crate::dispenser_frame::{Answer, Command, Payment};
use crate::kept::{Fate, Kept};

/// The sums of one cassette.
#[derive(Clone, Copy, Debug, Default, PartialEq, Eq)]
pub struct Sums {
    pub asked: u32,
    pub paid: u32,
    pub short: u32,
    pub over: u32,
    pub refused: u32,
    pub unknown: u32,
    pub open: u32,
    pub rejected: u32,
}

impl Sums {
    /// "asked q when accepted"; "open q until closed"
    fn opened(&mut self, q: u32) {
        self.asked += q;
        self.open = q;
    }

    /// "when answered, paid e, short q−e if e is below q, over e−q if e is above"
    fn paid(&mut self, payment: Payment) {
        let (q, e) = (self.open, payment.exit);
        self.paid += e;
        self.short += q.saturating_sub(e);
        self.over += e.saturating_sub(q);
        self.open = 0;
        self.rejected += payment.rejects;
    }

    fn refused(&mut self) {
        self.refused += self.open;
        self.open = 0;
    }

    fn lost(&mut self) {
        self.unknown += self.open;
        self.open = 0;
    }

    /// Demand 3: "notes asked plus notes paid over the asking equals notes paid, plus short, plus refused, plus unknown, plus
    /// still open".
    pub fn balances(&self) -> bool {
        self.asked + self.over == self.paid + self.short + self.refused + self.unknown + self.open
    }
}

#[derive(Clone, Debug, Default, PartialEq, Eq)]
pub struct Account {
    pub upper: Sums,
    pub lower: Sums,
    /// "The account record shall keep the last 32 paying requests" (Q-6 of document 02). The sums cover all.
    pub kept: Kept,
}

impl Account {
    /// A command that can be sent asks 0 of a cassette that it does not pay from.
    pub fn opened(&mut self, command: Command) {
        self.upper.opened(command.upper);
        self.lower.opened(command.lower);
        self.kept.opened(command);
    }

    pub fn handed_over(&mut self) {
        self.kept.handed_over();
    }

    /// "Rejects add from every good paying or test answer."
    pub fn answered(&mut self, answer: Answer) {
        match answer {
            Answer::PaidUpper(upper) => {
                self.upper.paid(upper);
                self.kept.closed(Fate::Answered { upper: upper.exit, lower: 0 });
            }
            Answer::PaidLower(lower) => {
                self.lower.paid(lower);
                self.kept.closed(Fate::Answered { upper: 0, lower: lower.exit });
            }
            Answer::PaidBoth(upper, lower) => {
                self.upper.paid(upper);
                self.lower.paid(lower);
                self.kept.closed(Fate::Answered { upper: upper.exit, lower: lower.exit });
            }
            Answer::TestedUpper { rejects } => self.upper.rejected += rejects,
            Answer::TestedLower { rejects } => self.lower.rejected += rejects,
            Answer::Purged | Answer::Status => {}
        }
    }

    pub fn refused(&mut self) {
        self.upper.refused();
        self.lower.refused();
        self.kept.closed(Fate::Refused);
    }

    /// "when closed unknown, unknown q"
    pub fn lost(&mut self) {
        self.upper.lost();
        self.lower.lost();
        self.kept.closed(Fate::Unknown);
    }
}
