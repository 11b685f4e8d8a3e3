//! The desk over a host that writes down what it is given. The host is this program itself: where it is given the words of `host`, it acts as one.
//!
//! This host answers a request with the bytes `04 50`, and the byte 06h with `06`; it fails on the byte FFh. On FEh it ends with status 4; and where it was to purge,
//! with status 3 when its input has ended.

use deskside::filter::Program;
use deskside::options::{options, Options};
use std::ffi::OsString;
use std::io::{self, BufRead, BufReader, Read, Write};
use std::os::unix::net::UnixListener;
use std::path::{Path, PathBuf};
use std::thread;
use std::time::{Duration, Instant};

fn main() {
    let words: Vec<OsString> = std::env::args_os().skip(1).collect();
    if let (Some(file), Some(_)) =
        (words.first(), words.get(1).filter(|&word| word == "--switched-on" || word == "--resume"))
    {
        return host(Path::new(file));
    }
    for (name, test) in [
        ("orders_and_bytes_in_their_order", orders_and_bytes_in_their_order as fn(&Path)),
        ("time_passes_by_orders", time_passes_by_orders),
        ("time_passes_by_the_machine", time_passes_by_the_machine),
        ("a_host_that_fails", a_host_that_fails),
        ("a_host_that_ends", a_host_that_ends),
        ("a_host_that_fails_at_its_end", a_host_that_fails_at_its_end),
        ("an_absent_unit", an_absent_unit),
        ("an_order_that_is_not_utf_8", an_order_that_is_not_utf_8),
        ("orders_that_cannot_be_read", orders_that_cannot_be_read),
        ("programs_that_fail", programs_that_fail),
        ("bills_that_cannot_be_enabled", bills_that_cannot_be_enabled),
    ] {
        let folder = std::env::temp_dir().join(format!("deskside-{}-{name}", std::process::id()));
        std::fs::create_dir(&folder).unwrap();
        test(&folder);
        std::fs::remove_dir_all(&folder).unwrap();
        println!("test {name} ... ok");
    }
}

// ---- the host

fn host(file: &Path) {
    let mut out = std::io::stdout();
    let mut log = std::fs::File::options().create(true).append(true).open(file).unwrap();
    let mut status = 0;
    println!("began");
    while let Some(record) = record(&mut std::io::stdin().lock()) {
        log.write_all(format!("{record:?}\n").as_bytes()).unwrap();
        match record[..] {
            [0, code, ..] => {
                println!("send dispenser 04 50\nsaid request {code}");
                if code == 0x44 {
                    status = 3;
                }
            }
            [1, 6] => println!("send dispenser 06"),
            [1 | 3, 255] => {
                println!("failed");
                return;
            }
            [1 | 3, 254] => std::process::exit(4),
            _ => {}
        }
        println!("done");
        out.flush().unwrap();
    }
    std::process::exit(status);
}

/// The kind and the numbers of the next record.
fn record(from: &mut impl Read) -> Option<Vec<u32>> {
    let kind = byte(from)?;
    let numbers = match kind {
        0 => 3,
        5 => 0,
        _ => 1,
    };
    let mut record = vec![kind.into()];
    for _ in 0..numbers {
        let (mut number, mut shift) = (0, 0);
        loop {
            let group = byte(from)?;
            number |= u32::from(group & 0x7F) << shift;
            shift += 7;
            if group < 0x80 {
                break;
            }
        }
        record.push(number);
    }
    Some(record)
}

fn byte(from: &mut impl Read) -> Option<u8> {
    let mut byte = [0];
    from.read_exact(&mut byte).ok().map(|()| byte[0])
}

// ---- the tests

/// The options of a desk with a dispenser at a socket in the folder.
fn desk(folder: &Path, more: &[&str]) -> Options {
    let mut words: Vec<OsString> = vec!["--record".into(), folder.join("log").into(), "--switched-on".into()];
    words.extend(more.iter().map(OsString::from));
    let mut options = options(words).unwrap();
    options.devices[0] = Some(format!("unix:{}", folder.join("dispenser").display()));
    options.host = Program { runner: None, file: std::env::current_exe().unwrap() };
    options
}

/// Runs a desk with these orders against a unit that is given the desk's end of the line. What the desk said, and whether it ended well.
fn run(
    options: &Options,
    orders: impl BufRead + Send + 'static,
    unit: impl FnOnce(std::os::unix::net::UnixStream) + Send + 'static,
) -> (String, Result<(), String>) {
    let socket = PathBuf::from(options.devices.iter().flatten().next().unwrap().trim_start_matches("unix:"));
    let listener = UnixListener::bind(socket).unwrap();
    let unit = thread::spawn(move || unit(listener.accept().unwrap().0));
    let mut said = Vec::new();
    let done = deskside::desk::run(options, orders, &mut said);
    drop(unit);
    (String::from_utf8(said).unwrap(), done)
}

/// A unit that says nothing for a while.
fn silent(line: std::os::unix::net::UnixStream) {
    thread::sleep(Duration::from_secs(1));
    drop(line);
}

fn log(options: &Options) -> Vec<String> {
    std::fs::read_to_string(&options.file).unwrap().lines().map(String::from).collect()
}

fn orders_and_bytes_in_their_order(folder: &Path) {
    let options = desk(folder, &[]);
    let (said, done) = run(&options, &b"status\nwait 300\nquit\n"[..], |mut line| {
        let mut command = [0; 2];
        line.read_exact(&mut command).unwrap();
        assert_eq!(command, [0x04, 0x50]);
        line.write_all(&[0x06, 0x41, 0x42]).unwrap();
        line.read_exact(&mut command[..1]).unwrap();
        assert_eq!(command[0], 0x06);
        thread::sleep(Duration::from_secs(1));
    });
    assert_eq!(done, Ok(()));
    assert!(said.starts_with("the recording begins\nrequest 70\n"), "{said}");
    let events: Vec<String> = log(&options).into_iter().filter(|line| !line.starts_with("[2,")).collect();
    assert_eq!(events, ["[0, 70, 0, 0]", "[1, 6]", "[1, 65]", "[1, 66]"]);
}

fn time_passes_by_orders(folder: &Path) {
    let options = desk(folder, &["--clock", "orders"]);
    let (said, done) = run(&options, &b"wait 2500\nstatus\nwait 1\nquit\n"[..], silent);
    assert_eq!(done, Ok(()));
    assert!(said.contains("# at 2500\n") && said.contains("# at 2501\n"), "{said}");
    assert_eq!(log(&options), ["[2, 1000]", "[2, 1000]", "[2, 500]", "[0, 70, 0, 0]", "[2, 1]"]);
}

/// The ticks are together what the machine says has passed, but for the slack behind each frame, and none is over a second.
fn time_passes_by_the_machine(folder: &Path) {
    let options = desk(folder, &[]);
    let start = Instant::now();
    let (_, done) = run(&options, &b"wait 1500\nstatus\nwait 200\nquit\n"[..], |line| {
        thread::sleep(Duration::from_secs(4));
        drop(line);
    });
    let passed = start.elapsed().as_millis() as u64;
    assert_eq!(done, Ok(()));
    let ticks: Vec<u64> =
        log(&options).iter().filter_map(|line| line.strip_prefix("[2, ")?.strip_suffix(']')?.parse().ok()).collect();
    let total: u64 = ticks.iter().sum();
    assert!(ticks.iter().all(|ms| (1..=1_000).contains(ms)), "{ticks:?}");
    assert!(total <= passed && total >= 1_500, "{total} of {passed}");
    // the clock was seen between the two waits, and near the end of the second
    let status = log(&options).iter().position(|line| line == "[0, 70, 0, 0]").unwrap();
    assert!(log(&options)[status..].len() > 10, "ticks are close together behind a frame");
}

fn a_host_that_fails(folder: &Path) {
    let options = desk(folder, &[]);
    let (_, done) = run(&options, &b"wait 30000\n"[..], |mut line| line.write_all(&[0x41, 0xFF, 0x43]).unwrap());
    assert!(done.is_err_and(|why| why.contains("--resume")));
    let events: Vec<String> = log(&options).into_iter().filter(|line| !line.starts_with("[2,")).collect();
    assert_eq!(events, ["[1, 65]", "[1, 255]"]);
}

fn a_host_that_ends(folder: &Path) {
    let options = desk(folder, &[]);
    let (_, done) = run(&options, &b"wait 30000\n"[..], |mut line| line.write_all(&[0x41, 0xFE]).unwrap());
    assert!(
        done.is_err_and(|why| why.starts_with("the program ended with exit status: 4. ") && why.contains("--resume"))
    );
}

fn a_host_that_fails_at_its_end(folder: &Path) {
    let options = desk(folder, &["--clock", "orders"]);
    let (_, done) = run(&options, &b"purge\nquit\n"[..], silent);
    assert_eq!(done, Err("host: the program ended with exit status: 3".into()));
}

fn an_absent_unit(folder: &Path) {
    let options = desk(folder, &["--clock", "orders"]);
    let (said, done) = run(&options, &b"poll\npoll every 200\nwhat\n\nhelp\n"[..], silent);
    assert_eq!(done, Ok(()));
    assert_eq!(said.matches("there is no validator at this desk\n").count(), 2);
    assert!(said.contains("not understood: what; help lists the orders\n"));
    assert!(said.contains("pay both 5 3"));
    assert_eq!(log(&options), Vec::<String>::new());
}

fn an_order_that_is_not_utf_8(folder: &Path) {
    let options = desk(folder, &["--clock", "orders"]);
    let (said, done) = run(&options, &b"pay upper 1\xFF\nstatus\nquit\n"[..], silent);
    assert_eq!(done, Ok(()));
    assert!(said.contains("not understood: pay upper 1\u{FFFD}; help lists the orders\n"), "{said}");
    assert_eq!(log(&options), ["[0, 70, 0, 0]"]);
}

fn orders_that_cannot_be_read(folder: &Path) {
    struct Broken;
    impl Read for Broken {
        fn read(&mut self, _: &mut [u8]) -> io::Result<usize> {
            Err(io::Error::other("broken"))
        }
    }
    let options = desk(folder, &["--clock", "orders"]);
    let (_, done) = run(&options, b"status\n".chain(BufReader::new(Broken)), silent);
    assert_eq!(done, Err("standard input: broken".into()));
    assert_eq!(log(&options), ["[0, 70, 0, 0]"]);
}

/// The desk goes on.
fn programs_that_fail(folder: &Path) {
    let mut options = desk(folder, &["--clock", "orders"]);
    options.replay = Program { runner: None, file: "false".into() };
    options.requests = Program { runner: None, file: folder.join("absent") };
    let (said, done) = run(&options, &b"account\nrequests\nstatus\nquit\n"[..], silent);
    assert_eq!(done, Ok(()));
    assert!(said.contains("that cannot be shown: the program ended with exit status: 1\n"), "{said}");
    assert_eq!(said.matches("that cannot be shown: ").count(), 2, "{said}");
    assert_eq!(log(&options), ["[0, 70, 0, 0]"]);
}

/// The recording begins all the same.
fn bills_that_cannot_be_enabled(folder: &Path) {
    let mut options = desk(folder, &["--clock", "orders", "--bills", "FF FF FF 00 00 00"]);
    options.devices.swap(0, 1);
    options.enable_bills = Program { runner: None, file: "false".into() };
    let (said, done) = run(&options, &b"wait 100\npoll\nquit\n"[..], silent);
    assert_eq!(done, Ok(()));
    assert!(said.contains("bills are not enabled: the program ended with exit status: 1\n"), "{said}");
    assert!(said.contains("the recording begins\n"), "{said}");
}
