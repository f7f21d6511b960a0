//! What `fold` does, in plain Rust that proves nothing: the measure for the program's speed.
//!
//! It has the same design: the log comes in pieces of 64 KiB, each report is read in one pass over its bytes, which tests by the place of a
//! bundle in the box, keeps the least quantity on each set of goods and adds it to the excess of the round, and all reports are
//! kept, packed in one list of u16.
use std::fs::File;
use std::io::Read;

const PIECE: usize = 65_536;
const GREATEST_PAYLOAD: usize = 32_768;
const GREATEST_LOG: u64 = 67_108_864;

enum Phase {
    Running,
    Ended,
    Halted(usize),
}

struct Clock {
    supply: Vec<u16>,
    bidders: u8,
    ceiling: u32,
    round: u32,
    reported: u16,
    prices: Vec<u32>,
    /// The least quantities of the round on each set, added up, less the supply.
    excess: [i32; 64],
    opening: [i32; 64],
    phase: Phase,
    /// All reports: where each begins in `quantities`, and its bidder and round.
    places: Vec<(u32, u8, u32)>,
    quantities: Vec<u16>,
}

impl Clock {
    fn new(supply: Vec<u16>, bidders: u8, ceiling: u32) -> Clock {
        let mut opening = [0; 64];
        for (set, cell) in opening.iter_mut().enumerate().take(1 << supply.len()) {
            *cell = -(0..supply.len())
                .filter(|good| set >> good & 1 == 1)
                .map(|good| supply[good] as i32)
                .sum::<i32>();
        }
        Clock {
            prices: vec![0; supply.len()],
            supply,
            bidders,
            ceiling,
            round: 1,
            reported: 0,
            excess: opening,
            opening,
            phase: Phase::Running,
            places: Vec::new(),
            quantities: Vec::new(),
        }
    }

    /// Applies the report of an entry, if the clock takes it.
    fn take(&mut self, payload: &[u8]) -> bool {
        match self.supply.len() {
            1 => self.take_goods::<1>(payload),
            2 => self.take_goods::<2>(payload),
            3 => self.take_goods::<3>(payload),
            4 => self.take_goods::<4>(payload),
            5 => self.take_goods::<5>(payload),
            _ => self.take_goods::<6>(payload),
        }
    }

    fn take_goods<const K: usize>(&mut self, payload: &[u8]) -> bool {
        if payload.len() < 8 || payload[5] as usize != K {
            return false;
        }
        let count = u16::from_be_bytes([payload[6], payload[7]]) as usize;
        let bidder = payload[0];
        let round = u32::from_be_bytes([payload[1], payload[2], payload[3], payload[4]]);
        if count == 0 || payload.len() != 8 + 2 * K * count || bidder < 1 || bidder > self.bidders {
            return false;
        }
        let bit = 1u16 << bidder;
        if round != self.round || self.reported & bit != 0 || !matches!(self.phase, Phase::Running) {
            return false;
        }
        let supply: [u16; K] = self.supply[..].try_into().unwrap();
        let start = self.quantities.len();
        let Some(least) = keep::<K>(&supply, &payload[8..], &mut self.quantities) else {
            self.quantities.truncate(start);
            return false;
        };
        self.places.push((start as u32, bidder, round));
        for set in 0..1 << K {
            self.excess[set] += least[set] as i32;
        }
        self.reported |= bit;
        if self.reported.count_ones() == self.bidders as u32 {
            self.close_round();
        }
        true
    }

    #[inline(never)]
    fn close_round(&mut self) {
        let goods = self.supply.len();
        let step = (0..1usize << goods)
            .max_by_key(|&set| (self.excess[set], -(set.count_ones() as i32), -(set as i32)))
            .unwrap();
        if step == 0 {
            self.phase = Phase::Ended;
            return;
        }
        if let Some(good) = (0..goods).find(|&good| step >> good & 1 == 1 && self.prices[good] == self.ceiling) {
            self.phase = Phase::Halted(good);
            return;
        }
        for good in 0..goods {
            self.prices[good] += (step >> good & 1) as u32;
        }
        self.round += 1;
        self.reported = 0;
        self.excess = self.opening;
    }

    fn line(&self) -> String {
        let prices = self.prices.iter().map(u32::to_string).collect::<Vec<_>>().join(" ");
        let round = self.round;
        match self.phase {
            Phase::Running => {
                let missing = (1..=self.bidders).find(|&bidder| self.reported >> bidder & 1 == 0).unwrap();
                format!("clock 0 round {round} running prices {prices} missing {missing}")
            }
            Phase::Ended => format!("clock 0 round {round} ended prices {prices}"),
            Phase::Halted(good) => format!("clock 0 round {round} halted {good} prices {prices}"),
        }
    }
}

/// Keeps the quantities of ascending bundles within the supply, and gives the least quantity on each set.
fn keep<const K: usize>(supply: &[u16; K], bytes: &[u8], into: &mut Vec<u16>) -> Option<[u16; 64]> {
    into.reserve(bytes.len() / 2);
    let mut least = [u16::MAX; 64];
    let mut next = 0u32;
    for bundle in bytes.chunks_exact(2 * K) {
        let mut x = [0u16; K];
        let mut place = 0u32;
        for good in 0..K {
            x[good] = u16::from_be_bytes([bundle[2 * good], bundle[2 * good + 1]]);
            if x[good] > supply[good] {
                return None;
            }
            place = place * (supply[good] as u32 + 1) + x[good] as u32;
        }
        if place < next {
            return None;
        }
        next = place + 1;
        into.extend_from_slice(&x);
        let at = |good: usize| if good < K { x[good] } else { 0 };
        let low = sums(at(0), at(1), at(2));
        let high = sums(at(3), at(4), at(5));
        for row in 0..if K > 3 { 1 << (K - 3) } else { 1 } {
            for set in 0..8 {
                let cell = &mut least[8 * row + set];
                *cell = (*cell).min(low[set] + high[row]);
            }
        }
    }
    Some(least)
}

fn sums(a: u16, b: u16, c: u16) -> [u16; 8] {
    [0, a, b, a + b, c, a + c, b + c, a + b + c]
}

/// The clock after a log, or the place of its first faulty entry.
fn fold(mut clock: Clock, file: &mut File) -> Result<Clock, u64> {
    let mut piece = vec![0u8; PIECE + GREATEST_PAYLOAD + 4];
    let (mut held, mut place, mut taken, mut fault) = (0, 0u64, 0u64, None);
    loop {
        let read = file.read(&mut piece[held..held + PIECE.min(GREATEST_PAYLOAD)]).expect("read");
        taken += read as u64;
        assert!(taken <= GREATEST_LOG, "too long log");
        if read == 0 {
            break;
        }
        if fault.is_some() {
            continue;
        }
        held += read;
        let mut at = 0;
        while held - at >= 4 {
            let size = u32::from_be_bytes(piece[at..at + 4].try_into().unwrap()) as usize;
            if size > GREATEST_PAYLOAD {
                fault = Some(place);
                break;
            }
            if held - at < 4 + size {
                break;
            }
            if !clock.take(&piece[at + 4..at + 4 + size]) {
                fault = Some(place);
                break;
            }
            at += 4 + size;
            place += 4 + size as u64;
        }
        piece.copy_within(at..held, 0);
        held -= at;
    }
    match fault {
        Some(place) => Err(place),
        None if held > 0 => Err(place),
        None => Ok(clock),
    }
}

fn main() {
    let words: Vec<String> = std::env::args().skip(1).collect();
    let supply = words[0].split(',').map(|units| units.parse().expect("SUPPLY")).collect();
    let clock = Clock::new(supply, words[1].parse().expect("BIDDERS"), words[2].parse().expect("CEILING"));
    match fold(clock, &mut File::open(&words[3]).expect("LOG")) {
        Ok(clock) => println!("{}", clock.line()),
        Err(place) => println!("bad log at {place}"),
    }
}
