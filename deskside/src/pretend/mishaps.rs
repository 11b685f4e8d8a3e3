//! What can go wrong on the dispenser's line, between the unit, which keeps its rules, and the desk.

use std::collections::VecDeque;

#[derive(Clone, Debug, Default)]
pub struct Mishaps {
    /// Nothing of what the unit sends arrives, or nothing of what it is sent.
    pub mute: bool,
    pub deaf: bool,
    /// So many bytes of the unit's are lost.
    pub loses: usize,
    /// So many answers of the unit's arrive with a wrong check, and so many commands of the host's.
    pub garbles: usize,
    pub mishears: usize,
    /// What arrives instead of the next single byte.
    pub instead: Option<u8>,
    /// Of the next answers only so many bytes arrive at first.
    pub holds: VecDeque<usize>,
    held: Vec<u8>,
    command: Vec<u8>,
}

impl Mishaps {
    /// What arrives at the desk of what the unit puts in one go: a single byte, or an answer.
    pub fn to_desk(&mut self, put: Vec<u8>) -> Vec<u8> {
        let mut bytes = put;
        if bytes.len() == 1 {
            bytes[0] = self.instead.take().unwrap_or(bytes[0]);
        }
        if bytes.len() > 1 {
            if self.garbles > 0 {
                self.garbles -= 1;
                if let Some(check) = bytes.last_mut() {
                    *check ^= 0x40;
                }
            }
            if let Some(first) = self.holds.pop_front() {
                self.held = bytes.split_off(first.min(bytes.len()));
            }
        }
        let lost = self.loses.min(bytes.len());
        self.loses -= lost;
        bytes.drain(..lost);
        if self.mute {
            bytes.clear();
        }
        bytes
    }

    /// What was held back arrives.
    pub fn let_go(&mut self) -> Vec<u8> {
        std::mem::take(&mut self.held)
    }

    /// What arrives at the unit of a byte that the host sends. A command begins with 04h and has the length that its code gives.
    pub fn to_unit(&mut self, mut byte: u8) -> Option<u8> {
        if byte == 0x04 || !self.command.is_empty() {
            self.command.push(byte);
            let length = match self.command.get(3) {
                Some(0x45 | 0x55) => 8,
                Some(0x56) => 10,
                _ => 6,
            };
            if self.command.len() == length {
                self.command.clear();
                if self.mishears > 0 {
                    self.mishears -= 1;
                    byte ^= 0x40;
                }
            }
        }
        (!self.deaf).then_some(byte)
    }
}

#[cfg(test)]
mod tests {
    use super::*;

    #[test]
    fn on_the_way_to_the_desk() {
        let mut line = Mishaps::default();
        assert_eq!(line.to_desk(vec![6]), [6]);
        line.instead = Some(0x41);
        assert_eq!(line.to_desk(vec![1, 2]), [1, 2]);
        assert_eq!(line.to_desk(vec![6]), [0x41]);
        line.garbles = 1;
        assert_eq!(line.to_desk(vec![6]), [6]);
        assert_eq!(line.to_desk(vec![1, 2]), [1, 0x42]);
        line.holds = [1].into();
        assert_eq!(line.to_desk(vec![1, 2, 3]), [1]);
        assert_eq!(line.let_go(), [2, 3]);
        line.loses = 3;
        assert_eq!(line.to_desk(vec![6]), []);
        assert_eq!(line.to_desk(vec![1, 2, 3]), [3]);
        line.mute = true;
        assert_eq!(line.to_desk(vec![6]), []);
    }

    #[test]
    fn on_the_way_to_the_unit() {
        let mut line = Mishaps { mishears: 1, ..Mishaps::default() };
        let mut send = |bytes: &[u8]| bytes.iter().filter_map(|&byte| line.to_unit(byte)).collect::<Vec<_>>();
        assert_eq!(send(&[6, 4, 0x50, 2, 0x45, 0x31, 0x30, 3, 0x11]), [6, 4, 0x50, 2, 0x45, 0x31, 0x30, 3, 0x51]);
        assert_eq!(send(&[4, 0x50, 2, 0x46, 3, 0x13, 0x15]), [4, 0x50, 2, 0x46, 3, 0x13, 0x15]);
        line.deaf = true;
        assert_eq!(line.to_unit(4), None);
    }
}
