//! Bare pairs in plain Rust, and reports at clock books beside them: what an append of a journal asks of the disk, and what the books make
//! of it. A pair is a write of the record after its gate, which stays closed, and a write of the one byte that opens it, each with its
//! fdatasync. By one thread on one file, and by 13 threads on a file each, in the folder in which it runs.
//!
//! It starts the program of the books and takes turns with it in short spells, now the one first and now the other, since the disk's
//! speed moves within minutes. Each spell's ratio is told, and the middle of them. At the end the length of each journal is compared with
//! that of a journal in which every report stands, with zeros after it.
use std::fs::{metadata, read_to_string, remove_file, File, OpenOptions};
use std::io::{BufRead, BufReader, Lines, Write};
use std::os::unix::fs::FileExt;
use std::process::{Child, ChildStdin, ChildStdout, Command, Stdio};
use std::time::Instant;

const CLOCKS: usize = 13;

const SPELLS: usize = 41;

/// The bytes of a journal's header, with its gate and the first record's.
const HEADER: u64 = 42;

/// The length, a payload of ten bytes, and the next gate.
const RECORD: [u8; 15] = [0; 15];

/// How many bytes a journal writes at once beyond its last record, at most.
const AHEAD: u64 = 4_096;

/// A file on which pairs are written, and the gate that comes next.
struct Paired {
    file: File,
    gate: u64,
}

fn name_of(place: usize) -> String {
    format!("pairs-{place:02}")
}

impl Paired {
    /// A file with the header of a journal.
    fn new(place: usize) -> Paired {
        let _ = remove_file(name_of(place));
        let file = OpenOptions::new().read(true).write(true).create(true).open(name_of(place)).unwrap();
        file.write_all_at(&[0; HEADER as usize], 0).unwrap();
        file.sync_all().unwrap();
        Paired { file, gate: HEADER - 1 }
    }

    fn pairs(&mut self, count: u64) {
        for _ in 0..count {
            self.file.write_all_at(&RECORD, self.gate + 1).unwrap();
            self.file.sync_data().unwrap();
            self.file.write_all_at(&[0xa5], self.gate).unwrap();
            self.file.sync_data().unwrap();
            self.gate += RECORD.len() as u64;
        }
    }
}

/// So many pairs on each file, each file by a thread of its own: the seconds.
fn spell(files: &mut [Paired], count: u64) -> f64 {
    let start = Instant::now();
    std::thread::scope(|scope| {
        for paired in files {
            scope.spawn(move || paired.pairs(count));
        }
    });
    start.elapsed().as_secs_f64()
}

/// The program of the books, which runs.
struct Books {
    child: Child,
    tell: ChildStdin,
    told: Lines<BufReader<ChildStdout>>,
}

impl Books {
    fn start(program: &str) -> Books {
        let mut child = Command::new(program).stdin(Stdio::piped()).stdout(Stdio::piped()).spawn().unwrap();
        let tell = child.stdin.take().unwrap();
        let told = BufReader::new(child.stdout.take().unwrap()).lines();
        Books { child, tell, told }
    }

    fn line(&mut self) -> String {
        self.told.next().unwrap().unwrap()
    }

    /// So many reports at each of so many clocks: the seconds.
    fn spell(&mut self, clocks: usize, count: u64) -> f64 {
        writeln!(self.tell, "{clocks} {count}").unwrap();
        let line = self.line();
        let micros = line.strip_suffix(" us, 0 missed").expect("a report was not taken");
        micros.parse::<f64>().unwrap() / 1e6
    }

    fn end(mut self) {
        drop(self.tell);
        assert!(self.child.wait().unwrap().success());
    }
}

fn middle(numbers: &[f64]) -> f64 {
    let mut sorted = numbers.to_vec();
    sorted.sort_by(f64::total_cmp);
    sorted[sorted.len() / 2]
}

/// Spells of so many at each of so many clocks.
fn compare(books: &mut Books, files: &mut [Paired], count: u64) {
    let clocks = files.len();
    let (mut pairs, mut reports, mut ratios) = (vec![], vec![], vec![]);
    for place in 0..SPELLS {
        let (bare, booked) = if place % 2 == 0 {
            let bare = spell(files, count);
            (bare, books.spell(clocks, count))
        } else {
            let booked = books.spell(clocks, count);
            (spell(files, count), booked)
        };
        let all = (clocks as u64 * count) as f64;
        pairs.push(all / bare);
        reports.push(all / booked);
        ratios.push(bare / booked);
    }
    println!("clocks {clocks}, {SPELLS} spells of {count} reports at each");
    println!("  reports {:.0} a second, bare pairs {:.0} a second, in the middle", middle(&reports), middle(&pairs));
    println!("  the ratio of each spell:{}", ratios.iter().map(|ratio| format!(" {ratio:.2}")).collect::<String>());
    println!("  the middle of the ratios: {:.3}", middle(&ratios));
}

fn main() {
    let program = std::env::args().nth(1).expect("the program of the books");
    let load = read_to_string("/proc/loadavg").unwrap_or_default();
    println!("load {}", load.trim());
    let mut books = Books::start(&program);
    println!("{}\n{}", books.line(), books.line());
    let mut files: Vec<Paired> = (0..CLOCKS).map(Paired::new).collect();
    let alone = 200;
    let each = 100;
    compare(&mut books, &mut files[..1], alone);
    compare(&mut books, &mut files, each);
    books.end();
    let load = read_to_string("/proc/loadavg").unwrap_or_default();
    println!("load {}", load.trim());
    for place in 0..CLOCKS {
        let reports = SPELLS as u64 * (each + if place == 0 { alone } else { 0 });
        let bytes = metadata(format!("clock-{place:02}.ahj")).unwrap().len();
        let records = HEADER + RECORD.len() as u64 * reports;
        assert!((records..records + AHEAD).contains(&bytes), "the journal of clock {place} has {bytes} bytes");
        remove_file(name_of(place)).unwrap();
    }
    println!("each journal has the length of all its reports");
}
