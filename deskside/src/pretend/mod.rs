//! The units that are no hardware, for tests and for students without any: the proved `pretend_unit` for the dispenser, a plain validator, and the mishaps of
//! both lines. Mishaps live here, since the proved device may not break its rules.

pub mod mishaps;
pub mod unit;
pub mod units;
pub mod validator;
