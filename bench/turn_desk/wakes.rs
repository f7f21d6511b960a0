//! What it costs to wake whose turn is next: threads take turns by ticket. Where all that wait sleep on one word, the end of a turn wakes all of
//! them; where each sleeps on the bell of its ticket, it wakes one, or that one and the one after. Twelve threads make turns of two writes with
//! an fdatasync each, as an append to a journal is, beside one thread alone; four threads make empty turns. Plain Rust, the middle of nine short
//! spells each, in turns of all rows:
//!
//!     rustc -O --edition 2021 wakes.rs -o FOLDER/wakes && FOLDER/wakes FILE
//!
//! FILE is made, on the disk that is measured.
use std::env;
use std::ffi::{c_int, c_long};
use std::fs::{File, OpenOptions};
use std::hint;
use std::io;
use std::os::unix::fs::FileExt;
use std::sync::atomic::Ordering::SeqCst;
use std::sync::atomic::{AtomicBool, AtomicU32, AtomicU64};
use std::thread;
use std::time::{Duration, Instant};

extern "C" {
    fn syscall(number: c_long, ...) -> c_long;
}

const FUTEX: c_long = 202;
const WAIT: c_int = 128;
const WAKE: c_int = 129;

const SPELLS: usize = 9;
const SPELL: Duration = Duration::from_millis(500);

/// How often a thread whose turn is near looks before it sleeps, and what is near: as at the desk.
const LOOKS: u32 = 200;
const NEAR: u32 = 4;

/// How long a thread is away between two turns.
const AWAY: Duration = Duration::from_micros(100);

/// The room of the file. Appends begin anew at its end.
const ROOM: u64 = 1 << 20;

fn sleep_on(word: &AtomicU32, seen: u32) {
    unsafe { syscall(FUTEX, word.as_ptr(), WAIT, seen, 0usize, 0usize, 0u32) };
}

fn wake_on(word: &AtomicU32) {
    unsafe { syscall(FUTEX, word.as_ptr(), WAKE, c_int::MAX, 0usize, 0usize, 0u32) };
}

/// A ticket lock whose waiting threads sleep on so many words, by their tickets.
struct Desk {
    ticket: AtomicU32,
    serving: AtomicU32,
    bells: Vec<AtomicU32>,
    /// How many threads sleep, or are about to.
    sleepers: AtomicU32,
    /// How many of the next turns' threads the end of a turn wakes.
    woken: u32,
}

impl Desk {
    fn new(bells: usize, woken: u32) -> Desk {
        Desk {
            ticket: AtomicU32::new(0),
            serving: AtomicU32::new(0),
            bells: (0..bells).map(|_| AtomicU32::new(0)).collect(),
            sleepers: AtomicU32::new(0),
            woken,
        }
    }

    fn bell(&self, ticket: u32) -> &AtomicU32 {
        &self.bells[ticket as usize % self.bells.len()]
    }

    fn enter(&self) {
        let ticket = self.ticket.fetch_add(1, SeqCst);
        let mut looks = 0;
        loop {
            let heard = self.bell(ticket).load(SeqCst);
            let served = self.serving.load(SeqCst);
            if served == ticket {
                return;
            }
            if looks < LOOKS && ticket.wrapping_sub(served) <= NEAR {
                hint::spin_loop();
                looks += 1;
            } else {
                self.sleepers.fetch_add(1, SeqCst);
                sleep_on(self.bell(ticket), heard);
                self.sleepers.fetch_sub(1, SeqCst);
                looks = 0;
            }
        }
    }

    fn leave(&self) {
        let served = self.serving.fetch_add(1, SeqCst);
        for step in 1..=self.woken {
            let bell = self.bell(served.wrapping_add(step));
            bell.fetch_add(1, SeqCst);
            if self.sleepers.load(SeqCst) > 0 {
                wake_on(bell);
            }
        }
    }
}

fn append(file: &File, at: u64) {
    file.write_all_at(&[7; 29], at).expect("a write");
    file.sync_data().expect("a sync");
    file.write_all_at(&[9], at + 29).expect("a write");
    file.sync_data().expect("a sync");
}

/// What is measured: so many threads at a desk with so many bells, of which the end of a turn rings some.
struct Row {
    name: &'static str,
    threads: usize,
    bells: usize,
    woken: u32,
    /// Whether a turn appends, or is empty.
    appends: bool,
}

const fn row(name: &'static str, threads: usize, bells: usize, woken: u32, appends: bool) -> Row {
    Row { name, threads, bells, woken, appends }
}

const ROWS: [Row; 7] = [
    row("appends, one thread alone", 1, 1, 1, true),
    row("appends, twelve threads, one word for all", 12, 1, 1, true),
    row("appends, twelve threads, a bell for each ticket", 12, 64, 1, true),
    row("appends, twelve threads, the bell behind it too", 12, 64, 2, true),
    row("empty turns, four threads, one word for all", 4, 1, 1, false),
    row("empty turns, four threads, a bell for each ticket", 4, 64, 1, false),
    row("empty turns, four threads, the bell behind it too", 4, 64, 2, false),
];

/// Turns a second.
fn turns(file: &File, row: &Row) -> f64 {
    let desk = Desk::new(row.bells, row.woken);
    let (count, stop) = (AtomicU64::new(0), AtomicBool::new(false));
    let start = Instant::now();
    thread::scope(|scope| {
        for _ in 0..row.threads {
            scope.spawn(|| {
                while !stop.load(SeqCst) {
                    desk.enter();
                    let turn = count.fetch_add(1, SeqCst);
                    if row.appends {
                        append(file, turn * 30 % ROOM);
                    }
                    desk.leave();
                    if row.appends && row.threads > 1 {
                        thread::sleep(AWAY);
                    }
                }
            });
        }
        thread::sleep(SPELL);
        stop.store(true, SeqCst);
    });
    count.load(SeqCst) as f64 / start.elapsed().as_secs_f64()
}

fn main() -> io::Result<()> {
    let name = env::args().nth(1).expect("the name of a file");
    let file = OpenOptions::new().write(true).create(true).truncate(true).open(name)?;
    file.write_all_at(&vec![0; ROOM as usize + 30], 0)?;
    file.sync_all()?;
    let mut found = [const { Vec::new() }; ROWS.len()];
    for _ in 0..SPELLS {
        for (place, row) in ROWS.iter().enumerate() {
            found[place].push(turns(&file, row));
        }
    }
    for (row, found) in ROWS.iter().zip(&mut found) {
        found.sort_by(f64::total_cmp);
        println!("{}: {:.0} turns a second", row.name, found[SPELLS / 2]);
    }
    Ok(())
}
