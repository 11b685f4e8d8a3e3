//! The starred lines of document 01's bench sheet, as what the sessions put into the rooms that are lent to them.

use cross::dispenser_frame::{Code, Command};
use cross::{ccnet_frame, dispenser, number, validator};

/// What a fresh dispenser session sends when it is asked.
fn asked(code: Code, upper: u32, lower: u32) -> Vec<u8> {
    let mut session = dispenser::Session::fresh();
    let mut room = [0; dispenser::Session::ROOM];
    for _ in 0..6 {
        session.tick(1_000, &mut room).expect("a tick");
    }
    let step = session.request(Command { code, upper, lower }, &mut room).expect("a command that can be sent");
    room[..step.put].to_vec()
}

/// What a fresh validator session sends when it is asked, and then when it has heard some bytes.
fn exchanged(command: validator::Command, heard: &[u8]) -> [Vec<u8>; 2] {
    let mut session = validator::Session::fresh();
    let mut room = [0; validator::Session::ROOM];
    session.tick(20, &mut room).expect("a tick");
    let step = session.request(command, &mut room).expect("a quiet line");
    let sent = room[..step.put].to_vec();
    let mut replied = Vec::new();
    for &byte in heard {
        let step = session.byte(byte, &mut room).expect("a large room");
        replied.extend(&room[..step.put]);
    }
    [sent, replied]
}

#[test]
fn the_starred_lines() {
    assert_eq!(asked(Code::PayUpper, 10, 0), [0x04, 0x50, 0x02, 0x45, 0x31, 0x30, 0x03, 0x11]);
    assert_eq!(asked(Code::PayLower, 0, 15).last(), Some(&0x04));
    assert_eq!(asked(Code::PayBoth, 15, 15).last(), Some(&0x03));
    assert_eq!(asked(Code::Purge, 0, 0).last(), Some(&0x11));
    assert_eq!(asked(Code::Status, 0, 0).last(), Some(&0x13));

    let idling = ccnet_frame::write(3, &[0x14]).expect("a short body");
    let [poll, ack] = exchanged(validator::Command::Poll, &idling);
    assert_eq!(poll, [0x02, 0x03, 0x06, 0x33, 0xDA, 0x81]);
    assert_eq!(ack, [0x02, 0x03, 0x06, 0x00, 0xC2, 0x82]);
    let [reset, nak] = exchanged(validator::Command::Reset, &[0x02, 0x04]);
    assert_eq!(reset, [0x02, 0x03, 0x06, 0x30, 0x41, 0xB3]);
    assert_eq!(nak, [0x02, 0x03, 0x06, 0xFF, 0xBA, 0x8D]);

    let mut thousand = Vec::new();
    number::write(1_000, &mut thousand);
    assert_eq!(thousand, [0xE8, 0x07]);
}
