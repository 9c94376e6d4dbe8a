//! The same work in plain Rust: sorted records of one length in each interval, moved as bytes, and
//! the same writes. It leaves the same bytes.

use std::time::Instant;

const ADDS: u64 = 1_500;
const TURNS: u64 = 300_000;
const SIZE: usize = 4096;
const RECORD: usize = 80;

struct Device {
    bytes: Vec<u8>,
    block: Vec<u8>,
    reads: u64,
    writes: u64,
    syncs: u64,
}

impl Device {
    fn read(&mut self, n: usize) {
        self.reads += 1;
        self.block.copy_from_slice(&self.bytes[n * SIZE..(n + 1) * SIZE]);
    }

    fn write(&mut self, n: usize, from: &[u8]) {
        self.writes += 1;
        self.bytes[n * SIZE..(n + 1) * SIZE].copy_from_slice(from);
    }

    fn sync(&mut self) {
        self.syncs += 1;
    }
}

fn two(bytes: &[u8], at: usize) -> usize {
    usize::from(u16::from_be_bytes([bytes[at], bytes[at + 1]]))
}

fn put_two(bytes: &mut [u8], at: usize, number: usize) {
    bytes[at..at + 2].copy_from_slice(&(number as u16).to_be_bytes());
}

/// The entry whose range has the key.
fn entry_for(head: &[u8], key: &[u8]) -> usize {
    let (mut low, mut high) = (0, two(head, 2) - 1);
    while low < high {
        let middle = (low + high) / 2;
        if key <= &head[44 + middle * 12..52 + middle * 12] {
            high = middle;
        } else {
            low = middle + 1;
        }
    }
    low
}

fn interval_of(head: &[u8], entry: usize) -> usize {
    two(head, 42 + entry * 12)
}

fn count(block: &[u8]) -> usize {
    two(block, SIZE - 4) / RECORD
}

/// The first record whose key isn't below this one, and whether it is this one.
fn search(block: &[u8], key: &[u8]) -> (usize, bool) {
    let n = count(block);
    let (mut low, mut high) = (0, n);
    while low < high {
        let middle = (low + high) / 2;
        if &block[middle * RECORD..middle * RECORD + 8] < key {
            low = middle + 1;
        } else {
            high = middle;
        }
    }
    (low, low < n && &block[low * RECORD..low * RECORD + 8] == key)
}

/// Writes what describes so many records, and zeros before it.
fn describe(block: &mut [u8], n: usize, busy: bool) {
    block[n * RECORD..SIZE].fill(0);
    let back = SIZE - 4 - if n == 0 { 0 } else if n == 1 { 3 } else { 6 };
    if n > 0 {
        block[SIZE - 7] = if n == 1 { 0 } else { 64 };
        put_two(block, SIZE - 6, RECORD);
    }
    if n > 1 {
        block[SIZE - 10] = 8;
        put_two(block, SIZE - 9, n);
    }
    put_two(block, SIZE - 4, n * RECORD);
    put_two(block, SIZE - 2, back - n * RECORD + if busy { 32768 } else { 0 });
}

struct Part {
    device: Device,
    head: Vec<u8>,
    out: Vec<u8>,
}

impl Part {
    fn meet(&mut self, key: &[u8]) -> (usize, usize) {
        self.device.read(0);
        self.head.copy_from_slice(&self.device.block);
        let entry = entry_for(&self.head, key);
        let interval = interval_of(&self.head, entry);
        self.device.read(interval + 1);
        (entry, interval)
    }

    fn set(&mut self, record: &[u8]) -> bool {
        let key = &record[..8];
        let (entry, interval) = self.meet(key);
        let (at, there) = search(&self.device.block, key);
        let n = count(&self.device.block);
        if !there && (n + 1) * (RECORD + 3) > SIZE - 4 {
            return self.split(entry, interval, at, n, key) && self.set(record);
        }
        self.out.copy_from_slice(&self.device.block);
        if !there {
            self.out.copy_within(at * RECORD..n * RECORD, (at + 1) * RECORD);
            describe(&mut self.out, n + 1, false);
        }
        self.out[at * RECORD..(at + 1) * RECORD].copy_from_slice(record);
        self.device.write(interval + 1, &self.out);
        true
    }

    fn split(&mut self, entry: usize, interval: usize, at: usize, n: usize, key: &[u8]) -> bool {
        let entries = two(&self.head, 2);
        let Some(free) = (0..63).find(|i| (0..entries).all(|e| interval_of(&self.head, e) != *i)) else {
            return false;
        };
        let last = entry + 1 == entries && at == n;
        let lower = if last { n } else { (n + 2) / 2 };
        let mut cut = [0; 8];
        let below = if at < lower { lower - 1 } else { lower };
        if at + 1 == lower {
            cut.copy_from_slice(key);
        } else {
            cut.copy_from_slice(&self.device.block[(below - 1) * RECORD..(below - 1) * RECORD + 8]);
        }
        self.out.fill(0);
        self.out[..(n - below) * RECORD]
            .copy_from_slice(&self.device.block[below * RECORD..n * RECORD]);
        describe(&mut self.out, n - below, false);
        self.device.write(free + 1, &self.out);
        self.out.copy_from_slice(&self.device.block);
        describe(&mut self.out, n, true);
        self.device.write(interval + 1, &self.out);
        self.device.sync();
        let at = 40 + entry * 12;
        self.head.copy_within(at..40 + entries * 12, at + 12);
        self.head[at + 4..at + 12].copy_from_slice(&cut);
        put_two(&mut self.head, at + 14, free);
        put_two(&mut self.head, 2, entries + 1);
        self.device.write(0, &self.head);
        self.device.sync();
        describe(&mut self.out, below, false);
        self.device.write(interval + 1, &self.out);
        true
    }

    fn get(&mut self, key: &[u8]) -> u64 {
        self.meet(key);
        let (at, there) = search(&self.device.block, key);
        if there { u64::from(self.device.block[(at + 1) * RECORD - 1]) } else { 0 }
    }

    fn set_all(&mut self, places: &[Vec<u8>], record: &mut [u8], fill: u8) -> u64 {
        let mut set = 0;
        for place in places {
            record.fill(fill);
            record[..8].copy_from_slice(place);
            set += u64::from(self.set(record));
        }
        set
    }

    fn report(&self, what: &str, nanos: u128, sum: u64) {
        let device = &self.device;
        println!("{what} {nanos} {} {} {} {sum}", device.reads, device.writes, device.syncs);
    }
}

fn main() {
    let places: Vec<Vec<u8>> =
        (0..ADDS).map(|turn| (turn * 1237 % 2048).to_be_bytes().to_vec()).collect();
    let mut bytes = vec![0; 64 * SIZE];
    bytes[..12].copy_from_slice(&[83, 1, 0, 1, 0, 0, 0, 8, 0, 0, 0, 1]);
    bytes[40..44].copy_from_slice(&[0, 1, 0, 0]);
    bytes[44..52].fill(255);
    bytes[8190..8192].copy_from_slice(&[15, 252]);
    let device = Device { bytes, block: vec![0; SIZE], reads: 0, writes: 0, syncs: 0 };
    let mut part = Part { device, head: vec![0; SIZE], out: vec![0; SIZE] };
    let mut record = vec![0; RECORD];

    let start = Instant::now();
    let set = part.set_all(&places, &mut record, 1);
    part.report("adds", start.elapsed().as_nanos(), set);

    let start = Instant::now();
    let mut sum = 0;
    for _ in 0..TURNS / ADDS {
        for place in &places {
            sum += part.get(place);
        }
    }
    part.report("gets", start.elapsed().as_nanos(), sum);

    let start = Instant::now();
    let mut set = 0;
    for round in 0..TURNS / ADDS {
        set += part.set_all(&places, &mut record, (round % 251) as u8);
    }
    part.report("replaces", start.elapsed().as_nanos(), set);

    let sum = part.device.bytes.iter().fold(0u64, |sum, byte| {
        sum.wrapping_mul(31).wrapping_add(u64::from(*byte))
    });
    part.report("blocks", 0, sum);
}
