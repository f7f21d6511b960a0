//! One bidder of the benchmark of `serve`, in plain Rust, so that the bidders take little of the processors: load PORT BIDDER CLOCKS SECONDS STAY PAUSE.
//!
//! For so many seconds it looks at each of the clocks 0 to CLOCKS - 1 but its own, in turns, and reports once in each round that it sees. Where STAY is
//! 1 it does so in one session; where it is 0 each look, with its report, is a session of its own. Between two turns of all clocks it waits PAUSE
//! microseconds. In one session without pauses it sends the next look after a report, in one piece; in a session for one report it sends the look
//! after the hello and the quit after the report. Such a look is timed from the reply before it on. It prints how many reports were taken, and in
//! a second line how many microseconds each look took.
use std::env;
use std::io::{BufReader, Error, ErrorKind, Read, Result, Write};
use std::net::TcpStream;
use std::thread::sleep;
use std::time::{Duration, Instant};

const HELLO: u8 = 1;
const LOOK: u8 = 2;
const REPORT: u8 = 3;
const QUIT: u8 = 4;
const WELCOME: u8 = 17;
const PRICE: u8 = 18;
const TAKEN: u8 = 19;
const AGAIN: u8 = 20;
const BYE: u8 = 22;

/// All units of the one good, which keeps a clock running for some thousand rounds.
const SUPPLY: u16 = 12;

/// The most looks whose times are told.
const TOLD: usize = 20_000;

/// A link to the house, whose replies are read as many at once as have come.
type Link = BufReader<TcpStream>;

/// Puts a frame after others.
fn put(frames: &mut Vec<u8>, kind: u8, payload: &[u8]) {
    frames.extend_from_slice(&(payload.len() as u32).to_be_bytes());
    frames.push(kind);
    frames.extend_from_slice(payload);
}

/// Takes a reply: its kind and its payload.
fn take(link: &mut Link) -> Result<(u8, Vec<u8>)> {
    let mut head = [0; 5];
    link.read_exact(&mut head)?;
    let mut reply = vec![0; u32::from_be_bytes([head[0], head[1], head[2], head[3]]) as usize];
    link.read_exact(&mut reply)?;
    Ok((head[4], reply))
}

/// Sends a frame and takes the reply.
fn ask(link: &mut Link, kind: u8, payload: &[u8]) -> Result<(u8, Vec<u8>)> {
    let mut frame = Vec::new();
    put(&mut frame, kind, payload);
    link.get_mut().write_all(&frame)?;
    take(link)
}

/// The payload of a reply of one of these kinds.
fn expect(kinds: &[u8], (kind, payload): (u8, Vec<u8>)) -> Result<Vec<u8>> {
    if kinds.contains(&kind) {
        return Ok(payload);
    }
    Err(Error::new(ErrorKind::InvalidData, format!("a reply of kind {kind}")))
}

/// A link to the house, which may not listen yet.
fn connect(port: u16) -> Result<Link> {
    let end = Instant::now() + Duration::from_secs(10);
    loop {
        match TcpStream::connect(("127.0.0.1", port)) {
            Err(error) if Instant::now() >= end => return Err(error),
            Err(_) => sleep(Duration::from_millis(2)),
            Ok(link) => {
                link.set_nodelay(true)?;
                return Ok(BufReader::with_capacity(256, link));
            }
        }
    }
}

/// A session of this bidder. After the hello goes a look at this clock, if there is one.
fn begin(port: u16, bidder: u8, clock: Option<u8>) -> Result<Link> {
    let mut link = connect(port)?;
    let mut hello = vec![bidder];
    hello.extend_from_slice(format!("token-{bidder}").as_bytes());
    let mut frames = Vec::new();
    put(&mut frames, HELLO, &hello);
    if let Some(clock) = clock {
        put(&mut frames, LOOK, &[clock]);
    }
    link.get_mut().write_all(&frames)?;
    expect(&[WELCOME], take(&mut link)?)?;
    Ok(link)
}

/// The round that a reply to a look shows.
fn round_in(reply: (u8, Vec<u8>)) -> Result<u32> {
    let price = expect(&[PRICE], reply)?;
    Ok(u32::from_be_bytes([price[1], price[2], price[3], price[4]]))
}

/// The payload of a report.
fn report(clock: u8, round: u32) -> Vec<u8> {
    let mut payload = vec![clock];
    payload.extend_from_slice(&round.to_be_bytes());
    payload.extend_from_slice(&[1, 0, 1]);
    payload.extend_from_slice(&SUPPLY.to_be_bytes());
    payload
}

fn main() -> Result<()> {
    let words: Vec<u64> = env::args().skip(1).map(|word| word.parse().expect("a number")).collect();
    let [port, bidder, clocks, seconds, stay, pause] = words[..] else {
        return Err(Error::new(ErrorKind::InvalidInput, "load PORT BIDDER CLOCKS SECONDS STAY PAUSE"));
    };
    let others: Vec<usize> = (0..clocks as usize).filter(|clock| *clock != bidder as usize).collect();
    let mut asked = stay == 0;
    let mut link = begin(port as u16, bidder as u8, asked.then_some(others[0] as u8))?;
    let mut reported = vec![0; clocks as usize];
    let (mut reports, mut looks) = (0, Vec::new());
    let ahead = stay == 1 && pause == 0;
    let end = Instant::now() + Duration::from_secs(seconds);
    while Instant::now() < end {
        for (place, clock) in others.iter().enumerate() {
            let begun = Instant::now();
            let round = round_in(if asked { take(&mut link)? } else { ask(&mut link, LOOK, &[*clock as u8])? })?;
            looks.push(begun.elapsed().as_micros());
            asked = false;
            let next = others[(place + 1) % others.len()] as u8;
            let mut frames = Vec::new();
            let reports_now = reported[*clock] != round;
            if reports_now {
                put(&mut frames, REPORT, &report(*clock as u8, round));
                if ahead {
                    put(&mut frames, LOOK, &[next]);
                    asked = true;
                }
            }
            if stay == 0 {
                put(&mut frames, QUIT, &[]);
            }
            link.get_mut().write_all(&frames)?;
            if reports_now {
                expect(&[TAKEN, AGAIN], take(&mut link)?)?;
                reported[*clock] = round;
                reports += 1;
            }
            if stay == 0 {
                expect(&[BYE], take(&mut link)?)?;
                link = begin(port as u16, bidder as u8, Some(next))?;
                asked = true;
            }
        }
        if pause > 0 {
            sleep(Duration::from_micros(pause));
        }
    }
    if asked {
        round_in(take(&mut link)?)?;
    }
    expect(&[BYE], ask(&mut link, QUIT, &[])?)?;
    looks.truncate(TOLD);
    println!("{reports}");
    println!("{}", looks.iter().map(u128::to_string).collect::<Vec<_>>().join(" "));
    Ok(())
}
