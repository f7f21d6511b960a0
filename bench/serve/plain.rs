//! The measure for `serve`: a plain server of the same promise, plain PORT DOORS CLOCKS FILE. It speaks the frames that load.rs sends, with
//! so many threads that serve one session at a time each. A report is a row of one table in SQLite, with a write-ahead log and full
//! synchronisation, in a transaction of its own, and is acknowledged after its commit; one lock stands round the rounds and the table.
//!
//!     rustc -O --edition 2021 -o plain plain.rs
//!
//! It links libsqlite3 (Debian's libsqlite3-dev). It checks neither tokens nor demands, and proves nothing.
use std::env;
use std::ffi::{c_char, c_int, c_void, CString};
use std::io::{Error, ErrorKind, Read, Result, Write};
use std::net::{TcpListener, TcpStream};
use std::ptr;
use std::sync::Mutex;
use std::thread;

const HELLO: u8 = 1;
const LOOK: u8 = 2;
const REPORT: u8 = 3;
const WELCOME: u8 = 17;
const PRICE: u8 = 18;
const TAKEN: u8 = 19;
const AGAIN: u8 = 20;
const BYE: u8 = 22;

const BIDDERS: u8 = 12;

/// What SQLite answers where a statement ran to its end.
const DONE: c_int = 101;

#[link(name = "sqlite3")]
extern "C" {
    fn sqlite3_open(name: *const c_char, base: *mut *mut c_void) -> c_int;
    fn sqlite3_exec(base: *mut c_void, sql: *const c_char, each: *const c_void, to: *const c_void, error: *mut *mut c_char) -> c_int;
    fn sqlite3_prepare_v2(base: *mut c_void, sql: *const c_char, length: c_int, statement: *mut *mut c_void, rest: *mut *const c_char) -> c_int;
    fn sqlite3_bind_int(statement: *mut c_void, place: c_int, value: c_int) -> c_int;
    fn sqlite3_bind_blob(statement: *mut c_void, place: c_int, bytes: *const c_void, length: c_int, free: *const c_void) -> c_int;
    fn sqlite3_step(statement: *mut c_void) -> c_int;
    fn sqlite3_reset(statement: *mut c_void) -> c_int;
}

/// A table of reports, and the statement that adds one.
struct Table {
    insert: *mut c_void,
}

// One lock stands round it.
unsafe impl Send for Table {}

impl Table {
    fn new(file: &str) -> Table {
        let name = CString::new(file).unwrap();
        let (mut base, mut insert) = (ptr::null_mut(), ptr::null_mut());
        unsafe {
            assert_eq!(sqlite3_open(name.as_ptr(), &mut base), 0, "the table is not opened");
            for sql in [
                "pragma journal_mode = wal",
                "pragma synchronous = full",
                "create table reports (clock integer, bidder integer, round integer, entry blob, primary key (clock, bidder, round))",
            ] {
                let sql = CString::new(sql).unwrap();
                assert_eq!(sqlite3_exec(base, sql.as_ptr(), ptr::null(), ptr::null(), ptr::null_mut()), 0, "the table is not made");
            }
            let sql = CString::new("insert into reports values (?, ?, ?, ?)").unwrap();
            assert_eq!(sqlite3_prepare_v2(base, sql.as_ptr(), -1, &mut insert, ptr::null_mut()), 0, "no statement");
        }
        Table { insert }
    }

    /// Commits one report.
    fn add(&mut self, clock: u8, bidder: u8, round: u32, entry: &[u8]) {
        unsafe {
            sqlite3_bind_int(self.insert, 1, clock as c_int);
            sqlite3_bind_int(self.insert, 2, bidder as c_int);
            sqlite3_bind_int(self.insert, 3, round as c_int);
            sqlite3_bind_blob(self.insert, 4, entry.as_ptr().cast(), entry.len() as c_int, ptr::null());
            assert_eq!(sqlite3_step(self.insert), DONE, "a report is not kept");
            sqlite3_reset(self.insert);
        }
    }
}

/// The round of each clock, who has reported in it, and the table.
struct House {
    rounds: Vec<(u32, u16)>,
    table: Table,
}

impl House {
    /// Keeps a report of the current round, and begins the next one where all members have reported.
    fn report(&mut self, bidder: u8, payload: &[u8]) -> u8 {
        let clock = payload[0];
        let round = u32::from_be_bytes([payload[1], payload[2], payload[3], payload[4]]);
        let (current, reported) = self.rounds[clock as usize];
        if round != current || reported >> bidder & 1 == 1 {
            return AGAIN;
        }
        self.table.add(clock, bidder, round, &payload[5..]);
        let reported = reported | 1 << bidder;
        let members = BIDDERS as u32 - (clock > 0) as u32;
        self.rounds[clock as usize] = if reported.count_ones() == members { (current + 1, 0) } else { (current, reported) };
        TAKEN
    }
}

fn reply(link: &mut TcpStream, kind: u8, payload: &[u8]) -> Result<()> {
    let mut frame = (payload.len() as u32).to_be_bytes().to_vec();
    frame.push(kind);
    frame.extend_from_slice(payload);
    link.write_all(&frame)
}

/// Answers the frames of one session, until it quits.
fn serve(link: &mut TcpStream, house: &Mutex<House>) -> Result<()> {
    link.set_nodelay(true)?;
    let mut bidder = 0;
    let (mut kept, mut piece) = (Vec::new(), vec![0; 65_536]);
    loop {
        let count = link.read(&mut piece)?;
        if count == 0 {
            return Err(Error::from(ErrorKind::UnexpectedEof));
        }
        kept.extend_from_slice(&piece[..count]);
        while kept.len() >= 5 {
            let end = 5 + u32::from_be_bytes([kept[0], kept[1], kept[2], kept[3]]) as usize;
            if kept.len() < end {
                break;
            }
            let frame: Vec<u8> = kept.drain(..end).collect();
            let payload = &frame[5..];
            match frame[4] {
                HELLO => {
                    bidder = payload[0];
                    reply(link, WELCOME, &[1, BIDDERS + 1])?;
                }
                LOOK => {
                    let (round, _) = house.lock().unwrap().rounds[payload[0] as usize];
                    let mut price = vec![payload[0]];
                    price.extend_from_slice(&round.to_be_bytes());
                    price.extend_from_slice(&[0, 0, 1]);
                    price.extend_from_slice(&(round - 1).to_be_bytes());
                    reply(link, PRICE, &price)?;
                }
                REPORT => {
                    let kind = house.lock().unwrap().report(bidder, payload);
                    reply(link, kind, &payload[..5])?;
                }
                _ => return reply(link, BYE, &[]),
            }
        }
    }
}

fn main() -> Result<()> {
    let words: Vec<String> = env::args().skip(1).collect();
    let [port, doors, clocks, file] = &words[..] else {
        return Err(Error::new(ErrorKind::InvalidInput, "plain PORT DOORS CLOCKS FILE"));
    };
    let number = |word: &String| word.parse::<u16>().expect("a number");
    let listener = TcpListener::bind(("127.0.0.1", number(port)))?;
    let house = Mutex::new(House { rounds: vec![(1, 0); number(clocks) as usize], table: Table::new(file) });
    thread::scope(|scope| {
        for _ in 0..number(doors) {
            scope.spawn(|| loop {
                // A session that breaks off ends alone.
                let _ = listener.accept().and_then(|(mut link, _)| serve(&mut link, &house));
            });
        }
    });
    Ok(())
}
