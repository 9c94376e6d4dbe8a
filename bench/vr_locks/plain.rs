//! The same work on plain hash maps of Rust: from a name to its holders, and from a unit to its names.

use std::collections::HashMap;
use std::time::Instant;

const TURNS: u64 = 1_000_000;
const LIVE: u32 = 62;
const EACH: u64 = 1_000;
const MOST: u64 = 100_000;

#[derive(Clone, PartialEq, Eq, Hash)]
enum LockName {
    Record { part: u32, place: Vec<u8> },
    #[allow(dead_code)]
    Unique { part: u32, key: Vec<u8> },
}

type Unit = (u32, u32);

#[derive(Default)]
struct Table {
    holders: HashMap<LockName, Vec<(Unit, bool)>>,
    names: HashMap<Unit, Vec<LockName>>,
}

impl Table {
    fn test(&self, unit: Unit, name: &LockName, exclusive: bool) -> Option<(Unit, bool)> {
        let holders = self.holders.get(name)?;
        holders.iter().find(|(holder, held)| *holder != unit && (exclusive || *held)).copied()
    }

    fn ask(&mut self, unit: Unit, names: &[LockName], exclusive: bool) -> Result<(), (Unit, LockName, bool)> {
        for name in names {
            if let Some((holder, held)) = self.test(unit, name, exclusive) {
                return Err((holder, name.clone(), held));
            }
        }
        for name in names {
            if let Some(holders) = self.holders.get_mut(name) {
                match holders.iter_mut().find(|(holder, _)| *holder == unit) {
                    Some((_, held)) => *held = *held || exclusive,
                    None => {
                        holders.push((unit, exclusive));
                        self.names.entry(unit).or_default().push(name.clone());
                    }
                }
            } else {
                self.holders.insert(name.clone(), vec![(unit, exclusive)]);
                self.names.entry(unit).or_default().push(name.clone());
            }
        }
        Ok(())
    }

    fn end(&mut self, unit: Unit) {
        for name in self.names.remove(&unit).unwrap_or_default() {
            if let Some(holders) = self.holders.get_mut(&name) {
                holders.retain(|(holder, _)| *holder != unit);
                if holders.is_empty() {
                    self.holders.remove(&name);
                }
            }
        }
    }
}

fn name(record: u64) -> LockName {
    LockName::Record { part: 1, place: record.to_be_bytes().to_vec() }
}

fn names(first: u64, count: u64) -> Vec<LockName> {
    (0..count).map(|i| name(first + i)).collect()
}

fn fill(table: &mut Table, unit: Unit, first: u64, count: u64) {
    for i in 0..count {
        let _ = table.ask(unit, &names(first + i, 1), true);
    }
}

fn turns(table: &mut Table, unit: Unit, other: Unit) -> u64 {
    let mut found = 0;
    for turn in 0..TURNS {
        let first = turn * 3 + (1 << 40);
        let _ = table.ask(unit, &names(first, 3), true);
        if table.test(other, &name(first), false).is_some() {
            found += 1;
        }
        table.end(unit);
    }
    found
}

fn tests(table: &Table, other: Unit) -> u64 {
    (0..TURNS).filter(|turn| table.test(other, &name(turn * 7919 % MOST), false).is_some()).count() as u64
}

fn main() {
    let (most, three, other) = ((1, 1), (64, 1), (65, 1));
    let mut table = Table::default();

    let start = Instant::now();
    let found = turns(&mut table, three, other);
    println!("turns-alone {TURNS} {} {found}", start.elapsed().as_nanos());

    for deck in 2..2 + LIVE {
        fill(&mut table, (deck, 1), u64::from(deck) << 20, EACH);
    }
    let start = Instant::now();
    fill(&mut table, most, 0, MOST);
    println!("asks {MOST} {} 0", start.elapsed().as_nanos());

    let start = Instant::now();
    let found = turns(&mut table, three, other);
    println!("turns-beside {TURNS} {} {found}", start.elapsed().as_nanos());

    let start = Instant::now();
    let found = tests(&table, other);
    println!("tests {TURNS} {} {found}", start.elapsed().as_nanos());

    let start = Instant::now();
    table.end(most);
    println!("end {MOST} {} 0", start.elapsed().as_nanos());
}
