//! A recording played through both fresh sessions.

use crate::dispenser::{self, Closing, Declined};
use crate::error_class::LastErrors;
use crate::recording::{Bad, Pieces, Record};
use crate::validator;
use std::hint::black_box;

/// The rooms that are lent to the sessions for what they send.
#[derive(Clone, Debug)]
pub struct Rooms {
    dispenser: [u8; dispenser::Session::ROOM],
    validator: [u8; validator::Session::ROOM],
}

impl Rooms {
    pub fn new() -> Rooms {
        Rooms { dispenser: [0; dispenser::Session::ROOM], validator: [0; validator::Session::ROOM] }
    }

    /// What the dispenser hears of a record that was played.
    pub fn to_dispenser(&self, played: Played) -> &[u8] {
        match played {
            Played::Dispenser(step) | Played::Both(step, _) => &self.dispenser[..step.put],
            Played::Validator(_) | Played::Cleared | Played::Declined(_) => &[],
        }
    }
}

impl Default for Rooms {
    fn default() -> Rooms {
        Rooms::new()
    }
}

/// Both sessions and what is counted beside them.
#[derive(Clone, Debug, Default)]
pub struct Bench {
    pub dispenser: dispenser::Session,
    pub validator: validator::Session,
    pub last_errors: LastErrors,
    pub declined: u32,
    pub records: u32,
}

/// What a record did: each session's own step, that the succession starts afresh, or why the record was declined.
#[derive(Clone, Copy, Debug, PartialEq, Eq)]
pub enum Played {
    Dispenser(dispenser::Step),
    Validator(validator::Step),
    Both(dispenser::Step, validator::Step),
    Cleared,
    Declined(Declined),
}

impl Bench {
    pub fn fresh() -> Bench {
        Bench::default()
    }

    /// "Each record refused by a session counts once as declined."
    #[inline(always)]
    pub fn play(&mut self, record: Record, rooms: &mut Rooms) -> Played {
        self.records += 1;
        match self.step(record, rooms) {
            Ok(played) => played,
            Err(declined) => {
                self.declined += 1;
                Played::Declined(declined)
            }
        }
    }

    #[inline(always)]
    fn step(&mut self, record: Record, rooms: &mut Rooms) -> Result<Played, Declined> {
        let Rooms { dispenser, validator } = rooms;
        Ok(match record {
            Record::Request(command) => Played::Dispenser(self.dispenser.request(command, dispenser)?),
            Record::DispenserByte(byte) => {
                let step = self.dispenser.byte(byte, dispenser)?;
                // no other record can bring an answer
                if let Some(Closing::Answered(answer, error)) = step.closing {
                    self.last_errors.answered(answer, error);
                }
                Played::Dispenser(step)
            }
            // both sessions judge a tick by the same rule, so that neither refuses what the other takes
            Record::Tick(ms) => Played::Both(self.dispenser.tick(ms, dispenser)?, self.validator.tick(ms, validator)?),
            Record::ValidatorByte(byte) => Played::Validator(self.validator.byte(byte, validator)?),
            Record::Ask(command) => Played::Validator(self.validator.request(command, validator)?),
            Record::Clear => {
                self.dispenser.clear()?;
                Played::Cleared
            }
        })
    }
}

/// A recording that comes in pieces, played as it comes. Nobody hears here what is sent; but the rooms are lent as if by somebody
/// who reads them, so that a compiler may leave no frame unwritten.
#[derive(Clone, Debug, Default)]
pub struct Replay {
    pieces: Pieces,
    bench: Bench,
    rooms: Rooms,
}

impl Replay {
    pub fn fresh() -> Replay {
        Replay::default()
    }

    pub fn piece(&mut self, bytes: &[u8]) {
        let Replay { pieces, bench, rooms } = self;
        black_box(&mut *rooms);
        pieces.piece(bytes, |record| {
            bench.play(record, rooms);
        });
        black_box(&*rooms);
    }

    pub fn is_bad(&self) -> bool {
        self.pieces.is_bad()
    }

    /// The bench after a good recording.
    pub fn ended(self) -> Result<Bench, Bad> {
        self.pieces.ended()?;
        Ok(self.bench)
    }
}

/// The bench after a good recording that comes in one piece.
pub fn replay(bytes: &[u8]) -> Result<Bench, Bad> {
    let mut replay = Replay::fresh();
    replay.piece(bytes);
    replay.ended()
}
