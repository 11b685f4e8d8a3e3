//! The two lines.

#[derive(Clone, Copy, Debug, PartialEq, Eq)]
pub enum Side {
    Dispenser,
    Validator,
}

impl Side {
    pub const BOTH: [Side; 2] = [Side::Dispenser, Side::Validator];

    pub fn name(self) -> &'static str {
        match self {
            Side::Dispenser => "dispenser",
            Side::Validator => "validator",
        }
    }

    pub fn named(name: &str) -> Option<Side> {
        Side::BOTH.into_iter().find(|side| side.name() == name)
    }

    pub fn index(self) -> usize {
        self as usize
    }
}
