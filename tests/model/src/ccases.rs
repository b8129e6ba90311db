//! Cases for the C call: two lists of bytes each (RULES, The C call).

use crate::orders::{c_call, good_rows, listed_of, YES};
use crate::random::Random;
use crate::rows::MOST_SITES;
use crate::writer::smallest_first;

#[derive(Clone, Debug)]
pub struct Case {
    pub rows: Vec<u8>,
    pub order: Vec<u8>,
}

impl Case {
    /// The case as the driver reads it: each list behind its length.
    pub fn bytes(&self) -> Vec<u8> {
        [&self.rows, &self.order].map(|list| [&(list.len() as u32).to_be_bytes()[..], list].concat()).concat()
    }
}

type Row = [u32; 1 + MOST_SITES];

fn case(rows: &[Row], order: &[u32]) -> Case {
    Case { rows: bytes(&rows.concat()), order: bytes(order) }
}

fn bytes(words: &[u32]) -> Vec<u8> {
    words.iter().flat_map(|w| w.to_be_bytes()).collect()
}

/// All cases of a run: lengths and small tables in full, then so many at random.
pub fn all(seed: u64, random_ones: u64) -> Vec<Case> {
    let mut out = lengths();
    out.extend(small());
    out.extend((0..random_ones).map(|index| random(&mut Random::new(seed, 77, index))));
    out
}

/// Every length of the row list from nothing to two rows too many, every length of the order list.
fn lengths() -> Vec<Case> {
    let rows: Vec<Row> = (1..=34).map(|n| [n, n, 0, n + 1, 0, 0, 0, 0, n]).collect();
    let order: Vec<u32> = (1..=40).collect();
    let whole = case(&rows, &order);
    let mut out = Vec::new();
    for length in 0..=whole.rows.len() {
        let fitting = length / 36 * 4;
        for order in [0, fitting, fitting + 1] {
            out.push(Case { rows: whole.rows[..length].to_vec(), order: whole.order[..order].to_vec() });
        }
    }
    for count in [0, 1, 2, 31, 32, 33] {
        for length in 0..=whole.order.len() {
            out.push(Case { rows: whole.rows[..count * 36].to_vec(), order: whole.order[..length].to_vec() });
        }
    }
    // Orders far longer than any table.
    out.extend([1000, 4096, 60_000].map(|length| Case { rows: whole.rows[..72].to_vec(), order: vec![1; length] }));
    out
}

/// Two rows with tickets 0 to 2 at two sites and numbers 0 to 2, against every order of up to three numbers.
fn small() -> Vec<Case> {
    let mut orders: Vec<Vec<u32>> = vec![Vec::new()];
    for length in 0..3 {
        let longer: Vec<Vec<u32>> = orders.iter().filter(|o| o.len() == length).cloned().collect();
        orders.extend(longer.iter().flat_map(|o| (0..=3).map(|n| [&o[..], &[n]].concat())));
    }
    let mut out = Vec::new();
    for tickets in 0..81_u32 {
        let digit = |place: u32| tickets / 3_u32.pow(place) % 3;
        for (one, two) in [(1, 2), (1, 8), (4, 7)] {
            for (first, second) in [(1, 2), (2, 1), (1, 1), (0, 1)] {
                let (mut a, mut b) = ([0; 9], [0; 9]);
                (a[0], a[one], a[two]) = (first, digit(0), digit(1));
                (b[0], b[one], b[two]) = (second, digit(2), digit(3));
                // Numbers that cannot be good need no more than one order.
                let count = if first * second == 2 { orders.len() } else { 1 };
                out.extend(orders[..count].iter().map(|order| case(&[a, b], order)));
            }
        }
    }
    out
}

fn random(random: &mut Random) -> Case {
    let mut rows = table(random);
    if random.chance(25) {
        spoil_rows(random, &mut rows);
    }
    let whole = bytes(&rows.concat());
    let known = listed_of(&whole).as_ref().and_then(good_rows).unwrap_or_default();
    let mut order = smallest_first(&known);
    if random.chance(50) {
        order = some_order(random, &rows, order);
    }
    spoil_order(random, &mut order);
    let mut out = Case { rows: whole, order: bytes(&order) };
    if random.chance(4) {
        out.rows.truncate(random.below(out.rows.len()));
    }
    if random.chance(4) {
        out.order.push(random.byte());
    }
    out
}

/// Rows whose tickets follow a hidden order at all sites, or at all but one, or at none.
fn table(random: &mut Random) -> Vec<Row> {
    let count = match random.below(4) {
        0 => random.below(4),
        1 => 30 + random.below(4),
        _ => random.below(33),
    };
    let scale = random.pick(&[1, 1, 3, 255, 256, 65_536, u32::MAX / 64]).unwrap_or(1);
    let mut numbers: Vec<u32> = (1..=count as u32).map(|n| n * scale).collect();
    random.shuffle(&mut numbers);
    let mut rows: Vec<Row> = numbers.iter().map(|&n| [n, 0, 0, 0, 0, 0, 0, 0, 0]).collect();
    let disorder = random.below(3);
    let density = random.pick(&[10, 30, 60, 100]).unwrap_or(50);
    for site in 1..=MOST_SITES {
        let mut users: Vec<usize> = (0..count).filter(|_| random.chance(density)).collect();
        if disorder == 2 || disorder == 1 && site == MOST_SITES {
            random.shuffle(&mut users);
        }
        let step = random.pick(&[1, 1, 7, 300, u32::MAX / 40]).unwrap_or(1);
        for (place, user) in (1..).zip(users) {
            rows[user][site] = place * step;
        }
    }
    if let (true, Some(row)) = (random.chance(10), rows.last_mut()) {
        row[1 + random.below(MOST_SITES)] = u32::MAX;
    }
    let mut listed = rows;
    random.shuffle(&mut listed);
    listed
}

fn spoil_rows(random: &mut Random, rows: &mut Vec<Row>) {
    let (a, b) = (random.below(rows.len()), random.below(rows.len()));
    let site = 1 + random.below(MOST_SITES);
    if rows.is_empty() {
        return;
    }
    match random.below(6) {
        0 => rows[a][0] = 0,
        1 => rows[a][0] = rows[b][0],
        2 => rows[a][site] = rows[b][site],
        3 => rows.push(rows[a]),
        4 => rows[a] = rows[b],
        _ => rows[a][site] = random.below(6) as u32,
    }
}

/// Another order of the rows, if a few random exchanges of neighbours give one.
fn some_order(random: &mut Random, rows: &[Row], mut order: Vec<u32>) -> Vec<u32> {
    for _ in 0..order.len() * 2 {
        if order.len() < 2 {
            break;
        }
        let at = random.below(order.len() - 1);
        order.swap(at, at + 1);
        let tried = case(rows, &order);
        if c_call(&tried.rows, &tried.order) != YES {
            order.swap(at, at + 1);
        }
    }
    order
}

fn spoil_order(random: &mut Random, order: &mut Vec<u32>) {
    let (a, b) = (random.below(order.len()), random.below(order.len()));
    let Some(last) = order.len().checked_sub(1) else { return };
    match random.below(14) {
        0 => order.swap(a, b),
        1 => order.swap(a, (a + 1).min(last)),
        2 => drop(order.remove(a)),
        3 => order[a] = order[b],
        4 => order.insert(a, order[b]),
        5 => order[a] = random.below(3) as u32,
        6 => order.push(random.word()),
        7 => random.shuffle(order),
        _ => (),
    }
}
