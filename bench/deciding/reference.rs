//! The same observations and the same passes in plain Rust: lines of rounds, labels in 64 bits, one climb for 64 stretches that lower
//! labels. `src/main.rt.in` says what is measured.
use std::time::Instant;

const SUPPLY: [u16; 6] = [3, 3, 3, 3, 3, 1];
const SIZE: usize = 2048;
const ZERO: u64 = 1 << 60;
type Row = [u32; 6];

struct Random(u64);

impl Random {
    fn next(&mut self, below: u64) -> u64 {
        self.0 = self.0.wrapping_mul(6364136223846793005).wrapping_add(1442695040888963407);
        (self.0 >> 33) % below
    }
}

struct Line {
    first: Row,
    step: Row,
    last: Row,
    count: u32,
}

struct Stretch {
    demand: Vec<[u16; 6]>,
    lines: Vec<Line>,
}

#[derive(Default)]
struct Rationale {
    stretches: Vec<Stretch>,
    count: u32,
}

impl Rationale {
    fn add(&mut self, prices: Row, demand: Vec<[u16; 6]>) {
        self.count += 1;
        let line = Line { first: prices, step: [0; 6], last: prices, count: 1 };
        match self.stretches.last_mut() {
            Some(stretch) if stretch.demand == demand => {
                let last = stretch.lines.last_mut().unwrap();
                let mut step = [0; 6];
                let mut rises = true;
                for good in 0..6 {
                    rises &= prices[good] >= last.last[good];
                    step[good] = prices[good].wrapping_sub(last.last[good]);
                }
                if rises && (last.count == 1 || step == last.step) {
                    *last = Line { first: last.first, step, last: prices, count: last.count + 1 };
                } else {
                    stretch.lines.push(line);
                }
            }
            _ => self.stretches.push(Stretch { demand, lines: vec![line] }),
        }
    }

    /// The greatest value, or how many links a negative cycle has.
    fn decide(&self) -> Result<i64, usize> {
        let mut labels = vec![ZERO; SIZE];
        let mut parents: Vec<Option<(u32, u16)>> = vec![None; SIZE];
        let mut costs = vec![0u64; SIZE];
        let mut gaps = vec![1u64; SIZE];
        for _ in 0..SIZE {
            let mut number = 0;
            let mut fell = None;
            let mut lowered = 0;
            for stretch in &self.stretches {
                gaps.fill(1);
                let places: Vec<u16> = stretch.demand.iter().map(index).collect();
                for place in &places {
                    gaps[*place as usize] = 0;
                }
                let mut here = None;
                for line in &stretch.lines {
                    for (ends, prices, at) in [(true, line.first, number), (line.count > 1, line.last, number + line.count - 1)] {
                        if ends {
                            show_costs(&prices, &mut costs);
                            here = observe(&places, &gaps, &costs, at, &mut labels, &mut parents).or(here);
                        }
                    }
                    number += line.count;
                }
                if let Some(place) = here {
                    fell = here;
                    lowered += 1;
                    if lowered % 64 == 0 {
                        if let Some(links) = climb(&parents, place) {
                            return Err(links);
                        }
                    }
                }
            }
            match fell {
                None => return Ok(labels.iter().map(|label| *label as i64 - labels[0] as i64).max().unwrap()),
                Some(place) => {
                    if let Some(links) = climb(&parents, place) {
                        return Err(links);
                    }
                }
            }
        }
        unreachable!()
    }
}

fn index(bundle: &[u16; 6]) -> u16 {
    bundle.iter().zip(SUPPLY).fold(0, |place, (quantity, units)| place * (units + 1) + quantity)
}

fn show_costs(prices: &Row, costs: &mut [u64]) {
    costs[0] = 0;
    let mut size = 1;
    for good in (0..6).rev() {
        for place in size..size * (SUPPLY[good] as usize + 1) {
            costs[place] = costs[place - size] + prices[good] as u64;
        }
        size *= SUPPLY[good] as usize + 1;
    }
}

fn observe(places: &[u16], gaps: &[u64], costs: &[u64], number: u32, labels: &mut [u64], parents: &mut [Option<(u32, u16)>]) -> Option<usize> {
    let (excess, x) = places.iter().map(|x| (labels[*x as usize] - costs[*x as usize], *x)).min_by_key(|start| start.0).unwrap();
    let mut fell = None;
    for place in 0..labels.len() {
        let next = excess + costs[place] - gaps[place];
        if next < labels[place] {
            labels[place] = next;
            parents[place] = Some((number, x));
            fell = Some(place);
        }
    }
    fell
}

fn climb(parents: &[Option<(u32, u16)>], start: usize) -> Option<usize> {
    let mut path = vec![];
    let mut at = start;
    loop {
        if let Some(first) = path.iter().position(|place| *place == at) {
            return Some(path.len() - first);
        }
        path.push(at);
        at = parents[at]?.1 as usize;
    }
}

/// What each unit of a good is worth, the first one first.
const VALUES: [[u32; 3]; 6] = [[9_001, 5_003, 1_201], [7_777, 4_321, 333], [8_889, 8_001, 7_003], [4_001, 2_001, 1_001], [6_001, 5_999, 17], [9_999, 0, 0]];

/// What is demanded of each good at the prices: each unit that is worth more.
fn wanted(prices: &Row) -> Vec<[u16; 6]> {
    vec![std::array::from_fn(|good| VALUES[good].iter().filter(|value| **value > prices[good]).count() as u16)]
}

fn tell(name: &str, start: Instant, rationale: &Rationale) {
    let added = start.elapsed().as_millis();
    let start = Instant::now();
    let decided = rationale.decide();
    let ends: u32 = rationale.stretches.iter().flat_map(|stretch| &stretch.lines).map(|line| line.count.min(2)).sum();
    let time = start.elapsed().as_micros();
    println!("plain, {name}: {} observations ({ends} followed), make and add {added} ms, decide {time} us: {decided:?}", rationale.count);
}

fn main() {
    let mut random = Random(1);
    let start = Instant::now();
    let mut rationale = Rationale::default();
    for number in 0..120_000u32 {
        let prices = std::array::from_fn(|good| 2 * (number % 30_000).saturating_sub(5_000 * good as u32).min(5_000));
        rationale.add(prices, wanted(&prices));
    }
    tell("four long auctions", start, &rationale);
    for truthful in [true, false] {
        let start = Instant::now();
        let mut rationale = Rationale::default();
        for _ in 0..720_012 {
            let prices = std::array::from_fn(|_| 2 * random.next(5000) as u32);
            let bundle = if truthful { wanted(&prices) } else { vec![std::array::from_fn(|good| random.next(SUPPLY[good] as u64 + 1) as u16)] };
            rationale.add(prices, bundle);
        }
        tell(if truthful { "random prices" } else { "random demands" }, start, &rationale);
    }
}
