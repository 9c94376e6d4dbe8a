//! The benchmark in plain Rust: blocks written through, and a cache on the plan of the `lru` crate:
//! a hash map from the block to its place, and a list of the places linked by their last use.
use std::collections::HashMap;
use std::time::Instant;

const TURNS: u32 = 1_000_000;
const BLOCKS: u32 = 10_000;
const SIZE: usize = 4096;
const BUSY: u32 = 2_000;
const PLACES: usize = 64;
const END: usize = usize::MAX;

type Block = [u8; SIZE];

struct Store {
    blocks: Vec<Block>,
}

impl Store {
    fn new() -> Store {
        Store {
            blocks: vec![[0; SIZE]; BLOCKS as usize],
        }
    }

    fn read(&mut self, n: u32, into: &mut [u8]) {
        into.copy_from_slice(&self.blocks[n as usize]);
    }

    fn write(&mut self, n: u32, from: &[u8]) {
        self.blocks[n as usize].copy_from_slice(from);
    }
}

trait Blocks {
    fn get(&mut self, n: u32) -> &[u8];
    fn put(&mut self, n: u32, bytes: &[u8]);
}

struct Direct {
    store: Store,
    block: Vec<u8>,
}

impl Blocks for Direct {
    fn get(&mut self, n: u32) -> &[u8] {
        self.store.read(n, &mut self.block);
        &self.block
    }

    fn put(&mut self, n: u32, bytes: &[u8]) {
        self.store.write(n, bytes);
    }
}

struct Place {
    block: u32,
    changed: bool,
    bytes: Vec<u8>,
    before: usize,
    after: usize,
}

/// The first place is the most recently used.
struct Cache {
    store: Store,
    places: Vec<Place>,
    places_of: HashMap<u32, usize>,
    first: usize,
    last: usize,
}

impl Cache {
    fn new(store: Store) -> Cache {
        Cache {
            store,
            places: Vec::with_capacity(PLACES),
            places_of: HashMap::with_capacity(PLACES),
            first: END,
            last: END,
        }
    }

    fn unlink(&mut self, at: usize) {
        let (before, after) = (self.places[at].before, self.places[at].after);
        match before {
            END => self.first = after,
            _ => self.places[before].after = after,
        }
        match after {
            END => self.last = before,
            _ => self.places[after].before = before,
        }
    }

    fn link_first(&mut self, at: usize) {
        self.places[at].before = END;
        self.places[at].after = self.first;
        match self.first {
            END => self.last = at,
            first => self.places[first].before = at,
        }
        self.first = at;
    }

    /// The place of the block at the front, and whether it holds its bytes.
    fn bring(&mut self, n: u32) -> (usize, bool) {
        if let Some(&at) = self.places_of.get(&n) {
            self.unlink(at);
            self.link_first(at);
            return (at, true);
        }
        let at = if self.places.len() < PLACES {
            self.places.push(Place {
                block: n,
                changed: false,
                bytes: vec![0; SIZE],
                before: END,
                after: END,
            });
            self.places.len() - 1
        } else {
            let at = self.last;
            self.unlink(at);
            let place = &mut self.places[at];
            if place.changed {
                self.store.write(place.block, &place.bytes);
            }
            self.places_of.remove(&place.block);
            place.block = n;
            place.changed = false;
            at
        };
        self.places_of.insert(n, at);
        self.link_first(at);
        (at, false)
    }
}

impl Blocks for Cache {
    fn get(&mut self, n: u32) -> &[u8] {
        let (at, held) = self.bring(n);
        if !held {
            self.store.read(n, &mut self.places[at].bytes);
        }
        &self.places[at].bytes
    }

    fn put(&mut self, n: u32, bytes: &[u8]) {
        let (at, _) = self.bring(n);
        let place = &mut self.places[at];
        place.bytes.copy_from_slice(bytes);
        place.changed = true;
    }
}

fn block_of(random: u32) -> u32 {
    let place = random >> 8;
    if random % 5 < 4 {
        place % BUSY
    } else {
        BUSY + place % (BLOCKS - BUSY)
    }
}

fn next(random: u32) -> u32 {
    let a = random ^ (random << 13);
    let b = a ^ (a >> 17);
    b ^ (b << 5)
}

fn turns<B: Blocks>(blocks: &mut B) -> u64 {
    let mut random = 1;
    let mut sum = 0u64;
    let mut bytes = [0; SIZE];
    for turn in 0..TURNS {
        random = next(random);
        let block = block_of(random);
        if random & 128 == 0 {
            bytes[0] = (turn & 255) as u8;
            blocks.put(block, &bytes);
        } else {
            sum += u64::from(blocks.get(block)[0]);
        }
    }
    sum
}

fn time<B: Blocks>(name: &str, mut blocks: B) {
    let begun = Instant::now();
    let sum = turns(&mut blocks);
    println!("{name} {TURNS} {} {sum}", begun.elapsed().as_nanos());
}

fn main() {
    let store = Store::new();
    time("direct", Direct { store, block: vec![0; SIZE] });
    time("resident", Cache::new(Store::new()));
}
