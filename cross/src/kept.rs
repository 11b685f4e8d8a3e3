//! "The last 32 requests" (Q-6 of document 02): what became of each paying request, the newest 32 of them.

use crate::dispenser_frame::Command;
use std::collections::VecDeque;

/// How a request was closed, or that it is open.
#[derive(Clone, Copy, Debug, PartialEq, Eq)]
pub enum Fate {
    Open,
    /// The notes that were paid from each cassette.
    Answered {
        upper: u32,
        lower: u32,
    },
    Refused,
    Unknown,
}

/// A paying request: "code, counts asked, hand-overs and how each closed".
#[derive(Clone, Copy, Debug, PartialEq, Eq)]
pub struct Entry {
    pub command: Command,
    /// How often it was handed over; of an open one, so far.
    pub handed: u32,
    pub fate: Fate,
}

/// The newest paying requests, "oldest first, an open one as open".
#[derive(Clone, Debug, Default, PartialEq, Eq)]
pub struct Kept(VecDeque<Entry>);

impl Kept {
    pub const MOST: usize = 32;

    /// The request at a place, the oldest at 0, if one is kept there.
    pub fn at(&self, place: usize) -> Option<&Entry> {
        self.0.get(place)
    }

    /// Oldest first.
    pub fn all(&self) -> impl Iterator<Item = &Entry> {
        self.0.iter()
    }

    /// A command was accepted. "a 33rd pushes out the oldest"; status, purge and test are not kept.
    pub fn opened(&mut self, command: Command) {
        if !command.code.pays() {
            return;
        }
        self.0.push_back(Entry { command, handed: 0, fate: Fate::Open });
        if self.0.len() > Kept::MOST {
            self.0.pop_front();
        }
    }

    /// The open command was handed over once more.
    pub fn handed_over(&mut self) {
        if let Some(entry) = self.open() {
            entry.handed += 1;
        }
    }

    /// The open command was closed.
    pub fn closed(&mut self, fate: Fate) {
        if let Some(entry) = self.open() {
            entry.fate = fate;
        }
    }

    /// The request that is open: the newest, unless the open command is one that is not kept.
    fn open(&mut self) -> Option<&mut Entry> {
        self.0.back_mut().filter(|entry| entry.fate == Fate::Open)
    }
}

#[cfg(test)]
mod tests {
    use super::*;
    use crate::dispenser_frame::Code;

    fn pay(count: u32) -> Command {
        Command { code: Code::PayUpper, upper: count, lower: 0 }
    }

    /// What is kept of so many requests, the k-th of which asks for k notes and is refused.
    fn kept(requests: u32) -> Kept {
        let mut kept = Kept::default();
        for count in 1..=requests {
            kept.opened(pay(count));
            (0..4).for_each(|_| kept.handed_over());
            kept.closed(Fate::Refused);
        }
        kept
    }

    #[test]
    fn the_newest_32_are_kept_oldest_first() {
        for (requests, oldest, most) in
            [(0, 1, 0), (1, 1, 1), (31, 1, 31), (32, 1, 32), (33, 2, 32), (64, 33, 32), (65, 34, 32), (100, 69, 32)]
        {
            let kept = kept(requests);
            let counts: Vec<u32> = kept.all().map(|entry| entry.command.upper).collect();
            assert_eq!(counts, (oldest..=requests).collect::<Vec<u32>>(), "{requests}");
            assert_eq!(counts.len(), most);
            assert!(kept.all().all(|entry| entry.handed == 4 && entry.fate == Fate::Refused));
        }
    }

    #[test]
    fn a_place_has_its_request_or_none() {
        let kept = kept(33);
        assert_eq!(kept.at(0).map(|entry| entry.command), Some(pay(2)));
        assert_eq!(kept.at(31).map(|entry| entry.command), Some(pay(33)));
        assert_eq!(kept.at(32), None);
        assert_eq!(kept.at(usize::MAX), None);
        assert_eq!(Kept::default().at(0), None);
    }

    #[test]
    fn an_open_request_pushes_out_the_oldest_too() {
        let mut kept = kept(32);
        kept.opened(pay(60));
        kept.handed_over();
        assert_eq!(kept.all().count(), 32);
        assert_eq!(kept.at(0).map(|entry| entry.command), Some(pay(2)));
        assert_eq!(kept.at(31), Some(&Entry { command: pay(60), handed: 1, fate: Fate::Open }));
    }

    #[test]
    fn other_commands_leave_it_as_it_is() {
        for code in [Code::Purge, Code::Status, Code::TestUpper, Code::TestLower] {
            for fate in [Fate::Answered { upper: 0, lower: 0 }, Fate::Refused, Fate::Unknown] {
                let mut other = kept(2);
                other.opened(Command { code, upper: 0, lower: 0 });
                other.handed_over();
                other.handed_over();
                other.closed(fate);
                assert_eq!(other, kept(2));
            }
        }
    }
}
