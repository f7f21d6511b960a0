//! What `assemble` does, in plain Rust that proves nothing, with 64 truth values in a word: the measure for its speed.
//!
//! It has the same design: back from the last demand a set of totals with which the demands behind can clear, then forward the first
//! bundle of each demand that keeps to such a total.
use std::time::Instant;

const BIDDERS: usize = 12;

/// How often each is measured; the least time counts.
const TIMES: usize = 20;

/// A set of bundles of the box, by their places.
type Set = Vec<u64>;

struct Goods {
    supply: Vec<u16>,
    size: usize,
    /// For each good and quantity the bundles with no more of it.
    within: Vec<Vec<Set>>,
}

impl Goods {
    fn new(supply: &[u16]) -> Goods {
        let size = supply.iter().map(|units| *units as usize + 1).product();
        let mut goods = Goods { supply: supply.to_vec(), size, within: Vec::new() };
        for good in 0..supply.len() {
            goods.within.push(goods.within_of(good));
        }
        goods
    }

    /// For each quantity of a good the bundles with no more of it: those with exactly so much, and those with one less.
    fn within_of(&self, good: usize) -> Vec<Set> {
        let units = self.supply[good] as usize;
        let mut sets = vec![vec![0; self.size.div_ceil(64)]; units + 1];
        for place in 0..self.size {
            sets[self.bundle(place)[good] as usize][place / 64] |= 1 << (place % 64);
        }
        for most in 1..=units {
            let (less, more) = sets.split_at_mut(most);
            more[0].iter_mut().zip(&less[most - 1]).for_each(|(word, less)| *word |= less);
        }
        sets
    }

    fn bundle(&self, place: usize) -> Vec<u16> {
        let mut rest = place;
        let mut x = vec![0; self.supply.len()];
        for good in (0..x.len()).rev() {
            x[good] = (rest % (self.supply[good] as usize + 1)) as u16;
            rest /= self.supply[good] as usize + 1;
        }
        x
    }

    fn place(&self, x: &[u16]) -> usize {
        x.iter().zip(&self.supply).fold(0, |place, (quantity, units)| place * (*units as usize + 1) + *quantity as usize)
    }

    fn set_of(&self, has: impl Fn(&[u16]) -> bool) -> Set {
        let mut set = vec![0; self.size.div_ceil(64)];
        for place in 0..self.size {
            if has(&self.bundle(place)) {
                set[place / 64] |= 1 << (place % 64);
            }
        }
        set
    }

    /// The totals with which these demands and those behind can clear, where those behind can with the ones of `behind`.
    fn before(&self, demand: &[Vec<u16>], behind: &Set, all: &Set) -> Set {
        let mut totals = vec![0; behind.len()];
        let mut marks = vec![0; behind.len()];
        for x in demand {
            if totals == *all {
                break;
            }
            marks.copy_from_slice(all);
            for good in 0..x.len() {
                let within = &self.within[good][(self.supply[good] - x[good]) as usize];
                marks.iter_mut().zip(within).for_each(|(mark, within)| *mark &= within);
            }
            join(&mut totals, &marks, behind, self.place(x));
        }
        totals
    }
}

/// Joins the further set, moved down by so many places, where it is marked.
fn join(totals: &mut [u64], marks: &[u64], further: &[u64], shift: usize) {
    let (words, bits) = (shift / 64, shift % 64);
    let end = further.len() - words;
    for word in 0..end {
        let low = further[word + words] >> bits;
        let high = if bits > 0 && word + 1 < end { further[word + words + 1] << (64 - bits) } else { 0 };
        totals[word] |= marks[word] & (low | high);
    }
}

fn assemble(supply: &[u16], opening: &[u32], prices: &[u32], demands: &[Vec<Vec<u16>>]) -> Option<Vec<Vec<u16>>> {
    let goods = Goods::new(supply);
    let all = goods.set_of(|_| true);
    let last = goods.set_of(|x| (0..x.len()).all(|good| prices[good] <= opening[good] || x[good] == supply[good]));
    let mut reaches = vec![last];
    for demand in demands.iter().rev() {
        let next = goods.before(demand, &reaches[reaches.len() - 1], &all);
        reaches.push(next);
    }
    let has = |reach: &Set, place: usize| reach[place / 64] >> (place % 64) & 1 == 1;
    if !has(&reaches[demands.len()], 0) {
        return None;
    }
    let mut taken = vec![0u16; supply.len()];
    let mut choice = Vec::new();
    for (number, demand) in demands.iter().enumerate() {
        let behind = &reaches[demands.len() - 1 - number];
        let bundle = demand.iter().find(|x| {
            (0..x.len()).all(|good| x[good] + taken[good] <= supply[good]) && has(behind, goods.place(x) + goods.place(&taken))
        })?;
        taken.iter_mut().zip(bundle).for_each(|(total, quantity)| *total += quantity);
        choice.push(bundle.clone());
    }
    Some(choice)
}

fn main() {
    for supply in [vec![2047], vec![3, 3, 3, 3, 3, 1]] {
        for step in 1..3 {
            let goods = Goods::new(&supply);
            let demand: Vec<Vec<u16>> = (0..goods.size).map(|place| goods.bundle(place)).filter(|x| x[0] % step == 0).collect();
            let demands = vec![demand; BIDDERS];
            let (opening, prices) = (vec![0; supply.len()], vec![1; supply.len()]);
            let mut micros = u128::MAX;
            let mut choice = None;
            for _ in 0..TIMES {
                let start = Instant::now();
                choice = assemble(&supply, &opening, &prices, &demands);
                micros = micros.min(start.elapsed().as_micros());
            }
            let count = supply.len();
            match choice {
                Some(choice) => {
                    let units = choice[BIDDERS - 1][0];
                    println!("plain: {count} goods in steps of {step}: {micros} us, {units} units of good 0 to the last")
                }
                None => println!("plain: {count} goods in steps of {step}: {micros} us, no choice"),
            }
        }
    }
}
