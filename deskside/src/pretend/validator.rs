//! A plain pretend validator: it reads the host's frames, and answers polls as it is told.

use crate::record::POLL;
use std::collections::VecDeque;

/// What comes for a command.
#[derive(Clone, Debug, PartialEq, Eq)]
pub enum Answer {
    /// A good frame with this body.
    Body(Vec<u8>),
    /// These bytes.
    Raw(Vec<u8>),
    /// A good frame of which only so many bytes come, and the rest after so many milliseconds.
    Late(Vec<u8>, usize, u64),
    Silent,
}

#[derive(Clone, Debug, Default)]
pub struct Validator {
    frame: Vec<u8>,
    /// The next answers; where there is none, a poll gets "idling" and any other command ACK.
    pub answers: VecDeque<Answer>,
    /// What is still to come, and in how many milliseconds.
    coming: Option<(Vec<u8>, u64)>,
}

const ACK: u8 = 0x00;
const NAK: u8 = 0xFF;
const IDLING: u8 = 0x14;

impl Validator {
    /// A byte from the host; what the validator puts on the line.
    pub fn byte(&mut self, byte: u8) -> Vec<u8> {
        if self.frame.is_empty() && byte != 0x02 {
            return Vec::new();
        }
        self.frame.push(byte);
        if self.frame.len() < 3 || self.frame.len() < usize::from(self.frame[2]) {
            return Vec::new();
        }
        let frame = std::mem::take(&mut self.frame);
        match frame[..] {
            // the host's own ACK and NAK
            [_, _, 6, ACK | NAK, ..] => Vec::new(),
            [_, _, _, code, ..] if is_good(&frame) => self.answer(code),
            _ => framed(&[NAK]),
        }
    }

    fn answer(&mut self, code: u8) -> Vec<u8> {
        let usual = Answer::Body(vec![if code == POLL { IDLING } else { ACK }]);
        match self.answers.pop_front().unwrap_or(usual) {
            Answer::Body(body) => framed(&body),
            Answer::Raw(bytes) => bytes,
            Answer::Late(body, first, ms) => {
                let mut now = framed(&body);
                let later = now.split_off(first.min(now.len()));
                self.coming = Some((later, ms));
                now
            }
            Answer::Silent => Vec::new(),
        }
    }

    /// Time passes.
    pub fn pass(&mut self, ms: u64) -> Vec<u8> {
        match self.coming.take() {
            Some((bytes, rest)) if rest <= ms => bytes,
            Some((bytes, rest)) => {
                self.coming = Some((bytes, rest - ms));
                Vec::new()
            }
            None => Vec::new(),
        }
    }
}

/// A frame of address 03h.
pub fn framed(body: &[u8]) -> Vec<u8> {
    let mut frame = vec![0x02, 0x03, body.len() as u8 + 5];
    frame.extend(body);
    let check = check(&frame);
    frame.extend(check.to_le_bytes());
    frame
}

fn is_good(frame: &[u8]) -> bool {
    frame.len() >= 6 && frame[1] == 0x03 && frame[frame.len() - 2..] == check(&frame[..frame.len() - 2]).to_le_bytes()
}

/// 003's check: polynomial 8408h, low bit first.
fn check(bytes: &[u8]) -> u16 {
    let turn = |sum: u16| if sum & 1 == 1 { sum >> 1 ^ 0x8408 } else { sum >> 1 };
    bytes.iter().fold(0, |sum, &byte| (0..8).fold(sum ^ u16::from(byte), |sum, _| turn(sum)))
}

#[cfg(test)]
mod tests {
    use super::*;

    fn ask(validator: &mut Validator, frame: &[u8]) -> Vec<u8> {
        frame.iter().flat_map(|&byte| validator.byte(byte)).collect()
    }

    const ASKED: [u8; 6] = [0x02, 0x03, 0x06, 0x33, 0xDA, 0x81];

    #[test]
    fn frames_of_the_bench_sheet() {
        assert_eq!(framed(&[POLL]), ASKED);
        assert_eq!(framed(&[ACK]), [0x02, 0x03, 0x06, 0x00, 0xC2, 0x82]);
        assert_eq!(framed(&[NAK]), [0x02, 0x03, 0x06, 0xFF, 0xBA, 0x8D]);
        assert_eq!(framed(&[0x30]), [0x02, 0x03, 0x06, 0x30, 0x41, 0xB3]);
    }

    #[test]
    fn what_it_answers() {
        let mut validator = Validator::default();
        assert_eq!(ask(&mut validator, &ASKED), framed(&[IDLING]));
        assert_eq!(ask(&mut validator, &framed(&[0x30])), framed(&[ACK]));
        assert_eq!(ask(&mut validator, &framed(&[ACK])), []);
        validator.answers.extend([Answer::Body(vec![0x81, 3]), Answer::Silent, Answer::Late(vec![IDLING], 2, 500)]);
        assert_eq!(ask(&mut validator, &ASKED), framed(&[0x81, 3]));
        assert_eq!(ask(&mut validator, &ASKED), []);
        assert_eq!(ask(&mut validator, &ASKED), [0x02, 0x03]);
        assert_eq!(validator.pass(499), []);
        assert_eq!(validator.pass(1), framed(&[IDLING])[2..]);
        assert_eq!(validator.pass(1), []);
        let mut wrong = ASKED;
        wrong[5] ^= 1;
        assert_eq!(ask(&mut validator, &wrong), framed(&[NAK]));
        assert_eq!(ask(&mut validator, &[0x41, 0x42]), []);
    }
}
