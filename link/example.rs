// Ten notes from the upper cassette, paid against the bytes of a dispenser that is not there. It writes what is sent, and the sums.
// 160 bytes, aligned to 8. What is inside is not ours.
#[repr(C)]
#[derive(Clone, Copy)]
pub struct Session([u64; 20]);

// The sums of a cassette, in the order of the report.
#[repr(C)]
pub struct Sums {
    asked: u32,
    paid: u32,
    others: [u32; 6],
}

#[repr(C)]
pub struct Reply {
    put: usize,
    declined: u8,
    closing: u8,
    error: u8,
}

// A `&mut [u8]` is two arguments there: where the room begins, and its length.
#[link(name = "dispenser_link", kind = "static")]
extern "C" {
    fn dispenser_fresh() -> Session;
    fn dispenser_request(session: &mut Session, code: u8, upper: u32, lower: u32, room: *mut u8, length: usize) -> Reply;
    fn dispenser_byte(session: &mut Session, byte: u8, room: *mut u8, length: usize) -> Reply;
    fn dispenser_tick(session: &mut Session, milliseconds: u32, room: *mut u8, length: usize) -> Reply;
    fn dispenser_clear(session: &mut Session) -> Reply;
    fn dispenser_upper(session: Session) -> Sums;
    fn dispenser_lower(session: Session) -> Sums;
}

fn sent(reply: Reply, room: &[u8]) {
    if reply.put > 0 {
        println!("{}", room[..reply.put].iter().map(|b| format!("{b:02X}")).collect::<Vec<_>>().join(" "));
    }
    if reply.declined > 0 {
        println!("declined {}", reply.declined);
    }
    if reply.closing == 1 {
        println!("answered, error byte {:02X}", reply.error);
    }
}

fn main() {
    let heard = [0x06, 0x01, 0x50, 0x02, 0x45, 0x31, 0x30, 0x31, 0x30, 0x30, 0x30, 0x30, 0x30, 0x03, 0x15];
    let mut room = [0; 16];
    // The session is this program's own, is made by `dispenser_fresh`, and goes from call to call; the room is as long as is said.
    unsafe {
        let mut session = dispenser_fresh();
        sent(dispenser_request(&mut session, 0x45, 10, 0, room.as_mut_ptr(), 16), &room);
        for _ in 0..6 {
            sent(dispenser_tick(&mut session, 1000, room.as_mut_ptr(), 16), &room);
        }
        sent(dispenser_request(&mut session, 0x45, 10, 0, room.as_mut_ptr(), 16), &room);
        for b in heard {
            sent(dispenser_byte(&mut session, b, room.as_mut_ptr(), 16), &room);
        }
        sent(dispenser_clear(&mut session), &room);
        let (upper, lower) = (dispenser_upper(session), dispenser_lower(session));
        println!("upper asked {} paid {}, lower asked {} paid {}", upper.asked, upper.paid, lower.asked, lower.paid);
        assert!(upper.others == [0; 6] && lower.others == [0; 6]);
    }
}
