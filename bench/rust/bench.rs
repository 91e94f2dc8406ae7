//! The planner's recurrences in plain Rust, on the inputs of the program `bench`: what its times are compared with.
//! Rows are filled count by count, in loops that the compiler turns into vector code; the tables and the order of work are
//! the planner's.

use std::time::{Duration, Instant};

const KINDS: usize = 32;
const WIDTH: usize = 4096;
const LOW: usize = 4000;
const CELLS: usize = (KINDS + 1) * WIDTH;

#[derive(Clone, Copy, Default)]
struct Kind {
    size: usize,
    price: u32,
    allowed: u64,
}

/// Row `i` to be read and row `i + 1` to be written.
fn rows<T>(cells: &mut [T], i: usize) -> (&[T], &mut [T]) {
    let (before, after) = cells[i * WIDTH..(i + 2) * WIDTH].split_at_mut(WIDTH);
    (before, after)
}

/// The counts of a set, rising, with the blocks that they take, while those stay within a row.
fn counts_of(set: u64, size: usize) -> impl Iterator<Item = (u32, usize)> {
    (0..64u32)
        .filter(move |d| set >> d & 1 == 1)
        .map(move |d| (d, size * d as usize))
        .filter(|&(_, shift)| shift < WIDTH)
}

fn mark_forward(cells: &mut [u8], kinds: &[Kind], sets: &[u64]) {
    cells[..WIDTH].fill(0);
    cells[0] = 1;
    for i in 0..kinds.len() {
        let (before, row) = rows(cells, i);
        row.fill(0);
        for (_, shift) in counts_of(sets[i], kinds[i].size) {
            for (to, from) in row[shift..].iter_mut().zip(before) {
                *to |= *from;
            }
        }
    }
}

fn ask(cells: &mut [u8]) {
    for (b, cell) in cells[KINDS * WIDTH..].iter_mut().enumerate() {
        *cell = u8::from((LOW..WIDTH).contains(&b));
    }
}

fn mark_backward(cells: &mut [u8], kinds: &[Kind], sets: &[u64]) {
    for i in (0..kinds.len()).rev() {
        let (row, after) = cells[i * WIDTH..(i + 2) * WIDTH].split_at_mut(WIDTH);
        row.fill(0);
        for (_, shift) in counts_of(sets[i], kinds[i].size) {
            for (to, from) in row.iter_mut().zip(&after[shift..]) {
                *to |= *from;
            }
        }
    }
}

fn used_sets(ahead: &[u8], back: &[u8], kinds: &[Kind], sets: &[u64]) -> [u64; KINDS] {
    let mut next = [0; KINDS];
    for i in 0..kinds.len() {
        let from = &ahead[i * WIDTH..(i + 1) * WIDTH];
        let to = &back[(i + 1) * WIDTH..(i + 2) * WIDTH];
        for (d, shift) in counts_of(sets[i], kinds[i].size) {
            let mut any = 0;
            for (f, g) in from.iter().zip(&to[shift..]) {
                any |= f & g;
            }
            next[i] |= u64::from(any) << d;
        }
    }
    next
}

fn held(sets: &[u64]) -> u64 {
    sets.iter().map(|s| u64::from(s.count_ones())).sum()
}

/// Fills both tables for the sets, and again for the counts that fitting loads use where those are fewer.
fn prune(ahead: &mut [u8], back: &mut [u8], kinds: &[Kind], sets: &[u64]) -> Option<[u64; KINDS]> {
    ask(back);
    mark_forward(ahead, kinds, sets);
    mark_backward(back, kinds, sets);
    if back[0] != 1 {
        return None;
    }
    let next = used_sets(ahead, back, kinds, sets);
    if next[..] != *sets {
        mark_forward(ahead, kinds, &next);
        mark_backward(back, kinds, &next);
    }
    Some(next)
}

/// What is tallied, as the planner's measures.
trait Measure {
    type Value: Copy;
    const ZERO: Self::Value;
    const ONE: Self::Value;
    fn worth(price: u32, count: u32) -> Self::Value;
    /// Joins `from`, chained with a worth, to `to`.
    fn join(to: &mut Self::Value, from: Self::Value, worth: Self::Value);
}

struct Loads;
impl Measure for Loads {
    type Value = u32;
    const ZERO: u32 = 0;
    const ONE: u32 = 1;
    fn worth(_price: u32, _count: u32) -> u32 {
        1
    }
    fn join(to: &mut u32, from: u32, _one: u32) {
        *to = to.saturating_add(from);
    }
}

/// The lowest price, in cells of `Option<u32>` as the planner's are.
struct Lowest;
impl Measure for Lowest {
    type Value = Option<u32>;
    const ZERO: Option<u32> = None;
    const ONE: Option<u32> = Some(0);
    fn worth(price: u32, count: u32) -> Option<u32> {
        Some(price * count)
    }
    fn join(to: &mut Option<u32>, from: Option<u32>, worth: Option<u32>) {
        if let (Some(x), Some(w)) = (from, worth) {
            let price = x.saturating_add(w);
            if to.is_none_or(|old| price < old) {
                *to = Some(price);
            }
        }
    }
}

/// The highest price, in the same cells.
struct Highest;
impl Measure for Highest {
    type Value = Option<u32>;
    const ZERO: Option<u32> = None;
    const ONE: Option<u32> = Some(0);
    fn worth(price: u32, count: u32) -> Option<u32> {
        Some(price * count)
    }
    fn join(to: &mut Option<u32>, from: Option<u32>, worth: Option<u32>) {
        if let (Some(x), Some(w)) = (from, worth) {
            let price = x.saturating_add(w);
            if to.is_none_or(|old| price > old) {
                *to = Some(price);
            }
        }
    }
}

/// The lowest price in a bare number, the largest being none: no price reaches it.
struct BareLowest;
impl Measure for BareLowest {
    type Value = u32;
    const ZERO: u32 = u32::MAX;
    const ONE: u32 = 0;
    fn worth(price: u32, count: u32) -> u32 {
        price * count
    }
    fn join(to: &mut u32, from: u32, worth: u32) {
        *to = (*to).min(from.saturating_add(worth));
    }
}

/// The highest price and one more in a bare number, 0 being none.
struct BareHighest;
impl Measure for BareHighest {
    type Value = u32;
    const ZERO: u32 = 0;
    const ONE: u32 = 1;
    fn worth(price: u32, count: u32) -> u32 {
        price * count
    }
    fn join(to: &mut u32, from: u32, worth: u32) {
        let price = if from == 0 { 0 } else { from + worth };
        *to = (*to).max(price);
    }
}

fn tally<M: Measure>(cells: &mut [M::Value], kinds: &[Kind], sets: &[u64]) -> M::Value {
    cells[..WIDTH].fill(M::ZERO);
    cells[0] = M::ONE;
    for i in 0..kinds.len() {
        let (before, row) = rows(cells, i);
        row.fill(M::ZERO);
        for (d, shift) in counts_of(sets[i], kinds[i].size) {
            let worth = M::worth(kinds[i].price, d);
            for (to, from) in row[shift..].iter_mut().zip(before) {
                M::join(to, *from, worth);
            }
        }
    }
    let mut all = M::ZERO;
    for v in &cells[KINDS * WIDTH + LOW..] {
        M::join(&mut all, *v, M::worth(0, 0));
    }
    all
}

/// The backward marks of standing sets, as a search goes down them.
struct Marks<'a> {
    back: &'a [u8],
    kinds: &'a [Kind],
    sets: &'a [u64],
}

impl Marks<'_> {
    /// The least count from `from` on that stands and can be closed.
    fn least(&self, i: usize, b: usize, from: u32) -> Option<u32> {
        let row = &self.back[(i + 1) * WIDTH..(i + 2) * WIDTH];
        let mut left = self.sets[i] & u64::MAX.checked_shl(from).unwrap_or(0);
        while left != 0 {
            let d = left.trailing_zeros();
            let total = b + self.kinds[i].size * d as usize;
            if total < WIDTH && row[total] == 1 {
                return Some(d);
            }
            left &= left - 1;
        }
        None
    }

    fn fill_rest(&self, load: &mut [u8], from: usize, mut total: usize) {
        for i in from..load.len() {
            if let Some(d) = self.least(i, total, 0) {
                load[i] = d as u8;
                total += self.kinds[i].size * d as usize;
            }
        }
    }

    fn first(&self, load: &mut [u8]) -> bool {
        if self.back[0] == 1 {
            self.fill_rest(load, 0, 0);
        }
        self.back[0] == 1
    }

    /// The load after one that stands.
    fn next(&self, load: &mut [u8]) -> bool {
        let mut total: usize = load
            .iter()
            .zip(self.kinds)
            .map(|(d, k)| k.size * *d as usize)
            .sum();
        for i in (0..load.len()).rev() {
            total -= self.kinds[i].size * load[i] as usize;
            if let Some(d) = self.least(i, total, u32::from(load[i]) + 1) {
                load[i] = d as u8;
                self.fill_rest(load, i + 1, total + self.kinds[i].size * d as usize);
                return true;
            }
        }
        false
    }
}

fn checksum(sum: u64, bytes: &[u8]) -> u64 {
    bytes
        .iter()
        .fold(sum, |s, b| s.wrapping_mul(31).wrapping_add(u64::from(*b)))
}

struct Lent {
    forward: Vec<u8>,
    backward: Vec<u8>,
    numbers: Vec<u32>,
    prices: Vec<Option<u32>>,
}

/// The first ten loads: as the planner does, both tables are filled for each.
fn list(kinds: &[Kind], sets: &[u64], lent: &mut Lent) -> Option<u64> {
    let mut load = [0u8; KINDS];
    let mut sum = 0;
    for k in 0..10 {
        ask(&mut lent.backward);
        mark_forward(&mut lent.forward, kinds, sets);
        mark_backward(&mut lent.backward, kinds, sets);
        let marks = Marks {
            back: &lent.backward,
            kinds,
            sets,
        };
        let found = if k == 0 {
            marks.first(&mut load)
        } else {
            marks.next(&mut load)
        };
        if !found {
            return None;
        }
        sum = checksum(sum, &load);
    }
    Some(sum)
}

fn price_in(price: Option<u32>) -> u64 {
    price.map_or(0, |v| u64::from(v) + 1)
}

fn done(work: usize, kinds: &[Kind], sets: &[u64; KINDS], lent: &mut Lent) -> Option<u64> {
    match work {
        0 => prune(&mut lent.forward, &mut lent.backward, kinds, sets).map(|next| held(&next)),
        1 => {
            let mut trial = *sets;
            trial[0] &= !2;
            let next = prune(&mut lent.forward, &mut lent.backward, kinds, &trial)?;
            Some(held(sets) - held(&next))
        }
        2 => Some(u64::from(tally::<Loads>(&mut lent.numbers, kinds, sets))),
        3 => Some(price_in(tally::<Lowest>(&mut lent.prices, kinds, sets))),
        4 => Some(price_in(tally::<Highest>(&mut lent.prices, kinds, sets))),
        5 => list(kinds, sets, lent),
        6 => Some(u64::from(tally::<BareLowest>(&mut lent.numbers, kinds, sets)) + 1),
        _ => Some(u64::from(tally::<BareHighest>(
            &mut lent.numbers,
            kinds,
            sets,
        ))),
    }
}

const NAMES: [&str; 8] = [
    "settle",
    "rule out",
    "tally of loads",
    "tally of lowest",
    "tally of highest",
    "list 10 loads",
    "tally of lowest, bare",
    "tally of highest, bare",
];

fn turn(
    work: usize,
    kinds: &[Kind],
    allowed: &[u64; KINDS],
    lent: &mut Lent,
) -> (Option<u64>, Duration) {
    let mut sets = *allowed;
    if work > 0 {
        sets = prune(&mut lent.forward, &mut lent.backward, kinds, allowed).unwrap_or(*allowed);
    }
    let start = Instant::now();
    let answer = std::hint::black_box(done(work, std::hint::black_box(kinds), &sets, lent));
    (answer, start.elapsed())
}

fn main() {
    let turns: Option<u32> = std::env::args().nth(1).and_then(|word| word.parse().ok());
    let mut lent = Lent {
        forward: vec![0; CELLS],
        backward: vec![0; CELLS],
        numbers: vec![0; CELLS],
        prices: vec![None; CELLS],
    };
    for (counts, first, step) in [(2u32, 100usize, 6usize), (8, 30, 2), (64, 3, 2)] {
        let allowed = u64::MAX >> (64 - counts);
        let mut kinds = [Kind::default(); KINDS];
        let mut price = 7;
        for (i, kind) in kinds.iter_mut().enumerate() {
            *kind = Kind {
                size: first + step * i,
                price,
                allowed,
            };
            price = price * 3 % 101;
        }
        let sets = kinds.map(|k| k.allowed);
        for (work, name) in NAMES.iter().enumerate() {
            let (answer, mut best) = turn(work, &kinds, &sets, &mut lent);
            for _ in 1..turns.unwrap_or(1) {
                best = best.min(turn(work, &kinds, &sets, &mut lent).1);
            }
            let marks = checksum(checksum(0, &lent.forward), &lent.backward);
            match answer {
                Some(value) => print!("{counts} counts, {name}: {value} marks {marks}"),
                None => print!("{counts} counts, {name}: refused"),
            }
            if turns.is_some() {
                print!(" ns {}", best.as_nanos());
            }
            println!();
        }
    }
}
