//! What `trial` and `make` do, in plain Rust that proves nothing: the measure for the program's speed.
//!
//! It has the plain design: each clock makes every round, each bidder carries the surplus of every bundle from round to round, and all
//! reports are kept, packed in one list of u16. The last demands are assembled back from the last bidder by a table of the totals that
//! can still clear. It believes that its valuations are strong substitutes.
//!
//! `reference trial FILE` reads a file of numbers: goods, supplies, bidders, ceiling, then each bidder's value of each bundle, good 0 first.
//! `reference make NUMBER` makes the auction of that number. `reference journals FILE FOLDER DIGEST` writes the journals that a house
//! would have of the clocks of an auction, whose file has that SHA-256.
use std::fmt::Write;

struct Auction {
    supply: Vec<usize>,
    bidders: usize,
    ceiling: u32,
    values: Vec<Vec<i32>>,
}

/// The bundles of the box in order, good 0 first.
fn bundles(supply: &[usize]) -> Vec<Vec<u16>> {
    let mut all = vec![Vec::new()];
    for &units in supply {
        all = all
            .iter()
            .flat_map(|bundle: &Vec<u16>| {
                (0..=units as u16).map(move |quantity| {
                    let mut longer = bundle.clone();
                    longer.push(quantity);
                    longer
                })
            })
            .collect();
    }
    all
}

/// The units of each bundle on each set of goods.
fn units_of(supply: &[usize], all: &[Vec<u16>]) -> Vec<Vec<i32>> {
    (0..1usize << supply.len())
        .map(|set| {
            all.iter()
                .map(|bundle| (0..supply.len()).filter(|good| set >> good & 1 == 1).map(|good| bundle[good] as i32).sum())
                .collect()
        })
        .collect()
}

struct Ended {
    members: Vec<usize>,
    prices: Vec<u32>,
    steps: u32,
    /// What the steps add up to with nobody left out, and with each bidder left out.
    without: Vec<i64>,
    /// The places of the last demands' bundles.
    demands: Vec<Vec<u32>>,
    /// The quantities of all reports, one after another.
    quantities: Vec<u16>,
    /// Of each report, where its quantities begin, its bidder and its round.
    places: Vec<(u32, u8, u32)>,
}

fn run_clock(auction: &Auction, all: &[Vec<u16>], units: &[Vec<i32>], number: usize) -> Ended {
    let goods = auction.supply.len();
    let members: Vec<usize> = (1..=auction.bidders).filter(|&bidder| bidder != number).collect();
    let mut surplus: Vec<Vec<i32>> = members.iter().map(|&bidder| auction.values[bidder - 1].clone()).collect();
    let mut prices = vec![0u32; goods];
    let mut without = vec![0i64; auction.bidders + 1];
    let mut quantities: Vec<u16> = Vec::new();
    let mut places: Vec<(u32, u8, u32)> = Vec::new();
    let mut steps = 0;
    loop {
        let mut demands = Vec::with_capacity(members.len());
        let mut leasts = Vec::with_capacity(members.len());
        let mut excess: Vec<i32> = units.iter().map(|column| -column[all.len() - 1]).collect();
        for (at, &bidder) in members.iter().enumerate() {
            let best = *surplus[at].iter().max().unwrap();
            let demand: Vec<u32> = (0..all.len() as u32).filter(|&place| surplus[at][place as usize] == best).collect();
            places.push((quantities.len() as u32, bidder as u8, steps + 1));
            for &place in &demand {
                quantities.extend_from_slice(&all[place as usize]);
            }
            let least: Vec<i32> = units.iter().map(|column| demand.iter().map(|&place| column[place as usize]).min().unwrap()).collect();
            for (sum, more) in excess.iter_mut().zip(&least) {
                *sum += more;
            }
            demands.push(demand);
            leasts.push(least);
        }
        let step = (0..1usize << goods).max_by_key(|&set| (excess[set], -(set.count_ones() as i32), -(set as i32))).unwrap();
        if step == 0 {
            return Ended { members, prices, steps, without, demands, quantities, places };
        }
        let supplied = units[step][all.len() - 1] as i64;
        for (bidder, sum) in without.iter_mut().enumerate() {
            *sum += supplied;
            for (at, &member) in members.iter().enumerate() {
                if member != bidder {
                    *sum -= leasts[at][step] as i64;
                }
            }
        }
        for good in 0..goods {
            if step >> good & 1 == 1 {
                assert!(prices[good] < auction.ceiling);
                prices[good] += 1;
            }
        }
        for worth in &mut surplus {
            for (cell, down) in worth.iter_mut().zip(&units[step]) {
                *cell -= down;
            }
        }
        steps += 1;
    }
}

/// The first choice that clears, by places: back from the last member the totals from which the members after can still clear.
fn assemble(auction: &Auction, all: &[Vec<u16>], ended: &Ended) -> Vec<u32> {
    let fits = |x: &[u16], y: &[u16]| x.iter().zip(y).zip(&auction.supply).all(|((a, b), units)| (a + b) as usize <= *units);
    let clears = |x: &[u16]| x.iter().zip(&auction.supply).zip(&ended.prices).all(|((a, units), price)| *price == 0 || *a as usize == *units);
    let mut reach: Vec<Vec<bool>> = vec![all.iter().map(|x| clears(x)).collect()];
    for demand in ended.demands.iter().rev() {
        let behind = reach.last().unwrap();
        let before = (0..all.len())
            .map(|taken| {
                demand.iter().any(|&place| {
                    let total = taken + place as usize;
                    total < all.len() && behind[total] && fits(&all[taken], &all[place as usize])
                })
            })
            .collect();
        reach.push(before);
    }
    let mut taken = 0;
    let mut choice = Vec::new();
    for (at, demand) in ended.demands.iter().enumerate() {
        let behind = &reach[ended.demands.len() - 1 - at];
        let place = *demand
            .iter()
            .find(|&&place| {
                let total = taken + place as usize;
                total < all.len() && behind[total] && fits(&all[taken], &all[place as usize])
            })
            .expect("a choice that clears");
        taken += place as usize;
        choice.push(place);
    }
    choice
}

fn words<T: std::fmt::Display>(numbers: &[T]) -> String {
    numbers.iter().map(|number| number.to_string()).collect::<Vec<_>>().join(" ")
}

/// The outcome's text, the steps of all clocks and the sum of all payments.
fn settle(auction: &Auction) -> (String, u64, i64, usize) {
    let all = bundles(&auction.supply);
    let units = units_of(&auction.supply, &all);
    let clocks: Vec<Ended> = (0..=auction.bidders).map(|number| run_clock(auction, &all, &units, number)).collect();
    let choices: Vec<Vec<u32>> = clocks.iter().map(|ended| assemble(auction, &all, ended)).collect();
    let mut text = format!("settled goods {} bidders {}\nprices {}\n", auction.supply.len(), auction.bidders, words(&clocks[0].prices));
    let mut revenue = 0;
    for bidder in 1..=auction.bidders {
        let award = &all[choices[0][bidder - 1] as usize];
        let (debit, credit) = (clocks[bidder].without[0], clocks[0].without[bidder]);
        let cost: i64 = award.iter().zip(&clocks[0].prices).map(|(x, p)| *x as i64 * *p as i64).sum();
        revenue += cost + debit - credit;
        writeln!(text, "bidder {bidder} award {} debit {debit} credit {credit} pays {}", words(award), cost + debit - credit).unwrap();
    }
    for (number, ended) in clocks.iter().enumerate() {
        writeln!(text, "clock {number} steps {} prices {}", ended.steps, words(&ended.prices)).unwrap();
        for (at, member) in ended.members.iter().enumerate() {
            writeln!(text, "choice {number} {member} {}", words(&all[choices[number][at] as usize])).unwrap();
        }
    }
    let kept = clocks.iter().map(|ended| ended.quantities.len() + ended.places.len()).sum();
    (text, clocks.iter().map(|ended| ended.steps as u64).sum(), revenue, kept)
}

/// The journal of a clock: its header, an open gate and an entry for each report, and the closed gate.
fn journal(goods: usize, number: usize, digest: &[u8], ended: &Ended) -> Vec<u8> {
    let mut bytes = b"\xa5AHJ1".to_vec();
    bytes.extend((number as u32).to_be_bytes());
    bytes.extend(digest);
    for (at, &(start, bidder, round)) in ended.places.iter().enumerate() {
        let end = ended.places.get(at + 1).map_or(ended.quantities.len(), |next| next.0 as usize);
        let quantities = &ended.quantities[start as usize..end];
        bytes.push(0xa5);
        bytes.extend((8 + 2 * quantities.len() as u32).to_be_bytes());
        bytes.push(bidder);
        bytes.extend(round.to_be_bytes());
        bytes.push(goods as u8);
        bytes.extend(((quantities.len() / goods) as u16).to_be_bytes());
        bytes.extend(quantities.iter().flat_map(|quantity| quantity.to_be_bytes()));
    }
    bytes.push(0);
    bytes
}

/// Writes the journals of all clocks of an auction, whose file has this SHA-256.
fn write_journals(auction: &Auction, folder: &str, digest: &str) {
    let digest: Vec<u8> = (0..32).map(|place| u8::from_str_radix(&digest[2 * place..2 * place + 2], 16).unwrap()).collect();
    let all = bundles(&auction.supply);
    let units = units_of(&auction.supply, &all);
    for number in 0..=auction.bidders {
        let ended = run_clock(auction, &all, &units, number);
        std::fs::write(format!("{folder}/clock-{number:02}.ahj"), journal(auction.supply.len(), number, &digest, &ended)).unwrap();
    }
}

fn made(number: u32) -> Auction {
    let supply = vec![4usize, 3, 2];
    let all = bundles(&supply);
    let mut state = number;
    let mut draw = || {
        state = state.wrapping_mul(69_069).wrapping_add(1);
        (state >> 16) as i32
    };
    let mut values = Vec::new();
    for bidder in 1..=12 {
        let column: Vec<i32> = match bidder % 3 {
            1 => {
                let worth: Vec<i32> = (0..3).map(|_| 1 + draw() % 200).collect();
                all.iter().map(|x| (0..3).filter(|&good| x[good] > 0).map(|good| worth[good]).max().unwrap_or(0)).collect()
            }
            2 => {
                let worth: Vec<i32> = (0..3).map(|_| 1 + draw() % 100).collect();
                let mut order = [0, 1, 2];
                order.sort_by_key(|&good| -worth[good]);
                let value = |x: &Vec<u16>| {
                    let mut left = 3;
                    let mut sum = 0;
                    for good in order {
                        let units = (x[good] as i32).min(left);
                        sum += units * worth[good];
                        left -= units;
                    }
                    sum
                };
                all.iter().map(value).collect()
            }
            _ => {
                let lists: Vec<Vec<i32>> = supply
                    .iter()
                    .map(|&units| {
                        let mut list: Vec<i32> = (0..units).map(|_| 1 + draw() % 60).collect();
                        list.sort_by_key(|worth| -worth);
                        list
                    })
                    .collect();
                all.iter().map(|x| (0..3).map(|good| lists[good][..x[good] as usize].iter().sum::<i32>()).sum()).collect()
            }
        };
        values.push(column);
    }
    Auction { supply, bidders: 12, ceiling: 1_000, values }
}

fn read(path: &str) -> Auction {
    let text = std::fs::read_to_string(path).unwrap();
    let mut numbers = text.split_ascii_whitespace().map(|word| word.parse::<i32>().unwrap());
    let goods = numbers.next().unwrap() as usize;
    let supply: Vec<usize> = numbers.by_ref().take(goods).map(|units| units as usize).collect();
    let bidders = numbers.next().unwrap() as usize;
    let ceiling = numbers.next().unwrap() as u32;
    let size = supply.iter().map(|units| units + 1).product();
    let values = (0..bidders).map(|_| numbers.by_ref().take(size).collect()).collect();
    Auction { supply, bidders, ceiling, values }
}

fn main() {
    let words: Vec<String> = std::env::args().collect();
    match words[1].as_str() {
        "make" => {
            let number = words[2].parse().unwrap();
            let times = words.get(3).map_or(1, |word| word.parse().unwrap());
            for _ in 0..times {
                let (_, steps, revenue, _) = settle(&made(number));
                println!("make {number} goods 3 bidders 12 clocks 13 steps {steps} revenue {revenue}");
            }
        }
        "journals" => write_journals(&read(&words[2]), &words[3], &words[4]),
        _ => print!("{}", settle(&read(&words[2])).0),
    }
}
