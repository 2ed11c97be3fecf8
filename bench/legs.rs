// A map's method in plain Rust, to time against: rustc -O bench/legs.rs.
// Reads maps as crates/lengths/out/lengths does, prints their lengths, and with `time R` the time of making each R times on stderr.
use std::hint::black_box;
use std::io::Read;
use std::time::Instant;

const N: usize = 64;
const MOST: u32 = 4_000_000;

struct Leg {
    from: u32,
    to: u32,
    length: u32,
}

struct Steps {
    sites: u32,
    ring: u32,
    legs: Vec<Leg>,
}

struct Map {
    sites: u32,
    cells: [[u32; N]; N],
}

impl Map {
    fn begin(sites: u32, ring: u32) -> Option<Map> {
        if !(1..=N as u32).contains(&sites) || !(1..=MOST).contains(&ring) {
            return None;
        }
        let mut cells = [[ring; N]; N];
        for (i, row) in cells.iter_mut().enumerate() {
            row[i] = 0;
        }
        Some(Map { sites, cells })
    }

    fn knows(&self, site: u32) -> bool {
        (1..=self.sites).contains(&site)
    }

    fn leg(&mut self, leg: &Leg) -> Option<()> {
        if !self.knows(leg.from) || !self.knows(leg.to) || leg.length > MOST {
            return None;
        }
        let from = leg.from as usize - 1;
        let onward = self.cells[leg.to as usize - 1];
        for row in self.cells.iter_mut() {
            let there = row[from] + leg.length;
            for (cell, on) in row.iter_mut().zip(&onward) {
                *cell = (*cell).min(there + on);
            }
        }
        Some(())
    }
}

fn charted(steps: &Steps) -> Option<Map> {
    let mut map = Map::begin(steps.sites, steps.ring)?;
    for leg in &steps.legs {
        let _ = map.leg(leg);
    }
    Some(map)
}

fn read_maps(text: &str) -> Vec<Steps> {
    let mut numbers = text.split_ascii_whitespace().map(|word| word.parse::<u32>().expect("a number"));
    let mut maps = Vec::new();
    while let Some(sites) = numbers.next() {
        let mut next = || numbers.next().expect("a number");
        let (ring, count) = (next(), next());
        let legs = (0..count).map(|_| Leg { from: next(), to: next(), length: next() }).collect();
        maps.push(Steps { sites, ring, legs });
    }
    maps
}

fn print_lengths(map: &Map) {
    let sites = map.sites as usize;
    for row in &map.cells[..sites] {
        let words: Vec<String> = row[..sites].iter().map(u32::to_string).collect();
        println!("{}", words.join(" "));
    }
}

fn report(maps: &[Steps], rounds: u32) {
    let mut legs = 0;
    let start = Instant::now();
    for steps in maps {
        for _ in 0..rounds {
            black_box(charted(black_box(steps)));
        }
        legs += steps.legs.len() * rounds as usize;
    }
    eprintln!("{} microseconds, {legs} legs", start.elapsed().as_micros());
}

fn main() {
    let mut text = String::new();
    std::io::stdin().read_to_string(&mut text).expect("text");
    let maps = read_maps(&text);
    maps.iter().filter_map(charted).for_each(|map| print_lengths(&map));
    let args: Vec<String> = std::env::args().collect();
    if args.len() == 3 && args[1] == "time" {
        report(&maps, args[2].parse().expect("a number"));
    }
}
