//! The same adds and gets in plain Rust, on a vector of blocks in memory and on the same blocks in a file: no log, no locks and
//! no checks, and of syncs one for each unit. Prints for each how many nanoseconds of processor time they took.

use std::fs::File;
use std::io::Result;
use std::os::unix::fs::FileExt;

const LENGTH: usize = 80;
const IN_UNIT: usize = 100;

unsafe extern "C" {
    /// The processor time of the process in microseconds, of the C library.
    fn clock() -> i64;
}

trait Blocks {
    fn read(&mut self, n: usize, into: &mut [u8]) -> Result<()>;
    fn write(&mut self, n: usize, from: &[u8]) -> Result<()>;
    fn sync(&mut self) -> Result<()>;
}

struct InMemory(Vec<Vec<u8>>);

impl Blocks for InMemory {
    fn read(&mut self, n: usize, into: &mut [u8]) -> Result<()> {
        into.copy_from_slice(&self.0[n]);
        Ok(())
    }

    fn write(&mut self, n: usize, from: &[u8]) -> Result<()> {
        if n == self.0.len() {
            self.0.push(from.to_vec());
        } else {
            self.0[n].copy_from_slice(from);
        }
        Ok(())
    }

    fn sync(&mut self) -> Result<()> {
        Ok(())
    }
}

impl Blocks for File {
    fn read(&mut self, n: usize, into: &mut [u8]) -> Result<()> {
        self.read_exact_at(into, (n * into.len()) as u64)
    }

    fn write(&mut self, n: usize, from: &[u8]) -> Result<()> {
        self.write_all_at(from, (n * from.len()) as u64)
    }

    fn sync(&mut self) -> Result<()> {
        self.sync_data()
    }
}

/// Records of one length in blocks, each with a count in its last two bytes. Of keyed records the first key of each block is
/// kept in memory; the others are at addresses or in slots, and each has a byte that says whether it is there.
struct Part<B> {
    blocks: B,
    block: Vec<u8>,
    used: usize,
    firsts: Vec<[u8; 8]>,
}

fn record_of(turn: usize) -> [u8; LENGTH] {
    let mut record = [b'a'; LENGTH];
    record[..8].copy_from_slice(format!("{turn:08}").as_bytes());
    record
}

impl<B: Blocks> Part<B> {
    fn new(blocks: B, size: usize) -> Part<B> {
        Part { blocks, block: vec![0; size], used: 0, firsts: Vec::new() }
    }

    fn held(&self) -> usize {
        (self.block.len() - 4) / (LENGTH + 3)
    }

    fn count(&self) -> usize {
        let end = self.block.len();
        usize::from(u16::from_be_bytes([self.block[end - 2], self.block[end - 1]]))
    }

    fn record(&self, at: usize) -> &[u8] {
        &self.block[at * LENGTH..(at + 1) * LENGTH]
    }

    /// Reads the block, or makes it where it is the next.
    fn take(&mut self, n: usize) -> Result<()> {
        if n < self.used {
            return self.blocks.read(n, &mut self.block);
        }
        self.used += 1;
        self.block.fill(0);
        Ok(())
    }

    /// Puts a record into the block at a place, before those that are there, and writes the block.
    fn put(&mut self, n: usize, at: usize, record: &[u8]) -> Result<()> {
        let (count, end) = (self.count(), self.block.len());
        self.block.copy_within(at * LENGTH..count * LENGTH, (at + 1) * LENGTH);
        self.block[at * LENGTH..(at + 1) * LENGTH].copy_from_slice(record);
        self.block[end - 2..].copy_from_slice(&((count + 1) as u16).to_be_bytes());
        self.blocks.write(n, &self.block)
    }

    /// The first record of the block whose key isn't below this one.
    fn search(&self, key: &[u8]) -> usize {
        let (mut low, mut high) = (0, self.count());
        while low < high {
            let middle = (low + high) / 2;
            if &self.record(middle)[..8] < key { low = middle + 1 } else { high = middle }
        }
        low
    }

    /// Reads the block that a key belongs to.
    fn meet(&mut self, key: &[u8]) -> Result<usize> {
        let n = self.firsts.partition_point(|first| &first[..] <= key).saturating_sub(1);
        self.take(n)?;
        Ok(n)
    }

    /// Adds a record whose key is above all, so that no block is split but the last, at its end.
    fn add_keyed(&mut self, _turn: usize, record: &[u8]) -> Result<()> {
        let mut n = self.meet(&record[..8])?;
        if self.count() == self.held() {
            n = self.used;
            self.take(n)?;
        }
        if self.count() == 0 {
            self.firsts.push(record[..8].try_into().unwrap());
        }
        let at = self.search(&record[..8]);
        self.put(n, at, record)
    }

    fn get_keyed(&mut self, _turn: usize, record: &[u8]) -> Result<bool> {
        self.meet(&record[..8])?;
        let at = self.search(&record[..8]);
        Ok(at < self.count() && self.record(at) == record)
    }

    fn add_numbered(&mut self, turn: usize, record: &[u8]) -> Result<()> {
        self.take(turn / self.held())?;
        let (at, end) = (turn % self.held(), self.block.len());
        self.block[end - 3 - at] = 1;
        self.put(turn / self.held(), at, record)
    }

    fn get_numbered(&mut self, turn: usize, record: &[u8]) -> Result<bool> {
        self.take(turn / self.held())?;
        let (at, end) = (turn % self.held(), self.block.len());
        Ok(self.block[end - 3 - at] == 1 && self.record(at) == record)
    }
}

type Records = [[u8; LENGTH]];
type Add<B> = fn(&mut Part<B>, usize, &[u8]) -> Result<()>;
type Get<B> = fn(&mut Part<B>, usize, &[u8]) -> Result<bool>;

fn phases<B: Blocks>(who: &str, set: &str, records: &Records, mut part: Part<B>, add: Add<B>, get: Get<B>) -> Result<()> {
    let count = records.len();
    let start = unsafe { clock() };
    for (turn, record) in records.iter().enumerate() {
        add(&mut part, turn, record)?;
        if turn % IN_UNIT == IN_UNIT - 1 {
            part.blocks.sync()?;
        }
    }
    let added = unsafe { clock() };
    for turn in (0..count).map(|turn| turn * 65_537 % count) {
        assert!(get(&mut part, turn, &records[turn])?, "{who} {set}: record {turn} is missing");
    }
    let ended = unsafe { clock() };
    println!("{who} {set} add {}\n{who} {set} get {}", (added - start) * 1000, (ended - added) * 1000);
    Ok(())
}

fn all<B: Blocks>(who: &str, records: &Records, new: fn(&str) -> Result<B>) -> Result<()> {
    let part = |name, size| Ok::<_, std::io::Error>(Part::new(new(name)?, size));
    phases(who, "keyed", records, part("plain.keyed", 32_768)?, Part::add_keyed, Part::get_keyed)?;
    phases(who, "entry", records, part("plain.entry", 4096)?, Part::add_numbered, Part::get_numbered)?;
    phases(who, "relative", records, part("plain.relative", 4096)?, Part::add_numbered, Part::get_numbered)
}

fn main() -> Result<()> {
    let count = std::env::args().nth(1).and_then(|word| word.parse().ok()).expect("how many records");
    let records: Vec<[u8; LENGTH]> = (0..count).map(record_of).collect();
    all("Rust-in-memory", &records, |_| Ok(InMemory(Vec::new())))?;
    all("Rust-in-a-file", &records, |name| {
        File::options().read(true).write(true).create(true).truncate(true).open(name)
    })
}
