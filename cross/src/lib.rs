//! The replay of document 01 a second time, with the requests of document 02 that have landed, in Rust, written from the
//! documents and not from the crates beside it: what a recording holds, what both sessions make of it, and the report. Around
//! it stands what compares the two: recordings made from a seed, a count of what they reached, and a search for the shortest
//! recording that shows a difference.
//!
//! The names in quotation marks are document 01's sections.

// "Recording and report"
pub mod number;
pub mod recording;
pub mod replay;
pub mod report;

// "Dispenser frames", "The dispenser session", "The account"; of document 02
pub mod account;
pub mod dispenser;
pub mod dispenser_frame;
pub mod error_class;
pub mod kept;
pub mod requests;

// "CCNET frames", "The validator session"; Q-1 of document 02
pub mod bill_table;
pub mod bill_table_sheet;
pub mod ccnet_frame;
pub mod ccnet_wide;
pub mod validator;

// Q-3 of document 02
pub mod vcdm;
pub mod vcdm_frame;
pub mod vcdm_sheet;

// Q-8 of document 02
pub mod pairs;
pub mod parted;
pub mod parted_files;
pub mod parted_sheet;

// Q-10 of document 02
pub mod payout;
pub mod payout_search;
pub mod payout_sheet;

// Q-14 of document 02
pub mod pretend;
pub mod pretend_sheet;

// Recordings to try: written as text, simulated, made from a seed.
pub mod bench;
pub mod generate;
pub mod quick;
pub mod random;
pub mod tables;
pub mod text;

// The programs, the comparison and the timing.
pub mod comparison;
pub mod files;
pub mod loads;
pub mod misread;
pub mod other;
pub mod reach;
pub mod sheet;
pub mod shrink;
pub mod watch;
pub mod wide_sheet;
pub mod wrong_requests;
pub mod wrong_stops;
pub mod wrong_tables;
