//! What stands around the Rattle program `host` at the desk: it makes the events (bytes as they arrive, orders as they are typed, milliseconds as
//! they pass) and carries the bytes that `host` says to the lines. It knows no rule of document 01.
//!
//! The desk: `side`, `record`, `typed`, `order`, `clock`, `queue`, `line`, `filter`, `said`, `desk`. The test side, which stands where the units are:
//! `pretend`, `bench`.

pub mod bench;
pub mod clock;
pub mod desk;
pub mod filter;
pub mod hex;
pub mod line;
pub mod news;
pub mod options;
pub mod order;
pub mod pretend;
pub mod queue;
pub mod record;
pub mod said;
pub mod side;
pub mod typed;
