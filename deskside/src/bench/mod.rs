//! A bench without hardware: it starts the desk and the pretend units, runs a script, kills what the script kills, and holds the account against the replay of
//! the recording and against what the unit was told about notes.

pub mod account;
pub mod running;
pub mod script;
pub mod stand;
