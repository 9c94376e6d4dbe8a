//! A straightforward version of the codec for control intervals of records and slots, and the same
//! measurements. It is built twice, since inlining the reader helps some blocks and slows others.
use std::hint::black_box;
use std::time::Instant;

const SIZE: usize = 4_096;
const ROUNDS: u64 = 200;
const TRIES: u64 = 200;

struct Writer<'a> {
    out: &'a mut [u8],
    front: usize,
    back: usize,
    used: usize,
    run: (usize, usize),
}

impl<'a> Writer<'a> {
    fn begin(out: &'a mut [u8]) -> Self {
        let back = out.len() - 4;
        Writer { out, front: 0, back, used: 0, run: (0, 0) }
    }

    fn add(&mut self, record: &[u8], live: bool) -> bool {
        if self.used + record.len() + 3 > self.out.len() - 4 {
            return false;
        }
        self.used += record.len() + 3;
        let to = &mut self.out[self.front..self.front + record.len()];
        if live { to.copy_from_slice(record) } else { to.fill(0) }
        self.front += record.len();
        let length = (record.len() as u16).to_be_bytes();
        if live && self.run.1 > 0 && self.run.0 == record.len() {
            if self.run.1 == 1 {
                self.out[self.back] = 0x40;
                self.back -= 3;
                self.out[self.back] = 0x08;
            }
            self.run.1 += 1;
            let count = (self.run.1 as u16).to_be_bytes();
            self.out[self.back + 1..self.back + 3].copy_from_slice(&count);
        } else {
            self.back -= 3;
            self.out[self.back] = if live { 0x00 } else { 0x04 };
            self.out[self.back + 1..self.back + 3].copy_from_slice(&length);
            self.run = (record.len(), usize::from(live));
        }
        true
    }

    fn end(self, busy: bool) {
        self.out[self.front..self.back].fill(0);
        let top = self.out.len() - 4;
        let free = (self.back - self.front) as u16 | if busy { 0x8000 } else { 0 };
        self.out[top..top + 2].copy_from_slice(&(self.front as u16).to_be_bytes());
        self.out[top + 2..].copy_from_slice(&free.to_be_bytes());
    }
}

fn number(bytes: &[u8], at: usize) -> usize {
    usize::from(u16::from_be_bytes([bytes[at], bytes[at + 1]]))
}

/// One RDF or pair that ends there: where it begins, its length, its count and its live mark.
fn unit(bytes: &[u8], end: usize) -> Option<(usize, usize, usize, bool)> {
    let length = number(bytes, end - 2);
    match bytes[end - 3] {
        0x00 if length > 0 => Some((end - 3, length, 1, true)),
        0x04 if length > 0 => Some((end - 3, length, 1, false)),
        0x40 if length > 0 && bytes[end - 6] == 0x08 && number(bytes, end - 5) >= 2 => {
            Some((end - 6, length, number(bytes, end - 5), true))
        }
        _ => None,
    }
}

/// Whether the block is a plain interval of records.
#[cfg_attr(apart, inline(never))]
fn is_interval(bytes: &[u8]) -> bool {
    let top = bytes.len() - 4;
    let (front, free) = (number(bytes, top), number(bytes, top + 2) & 0x7FFF);
    if front + free > top {
        return false;
    }
    let (mut end, mut span, mut room, mut run) = (top, 0, 0, 0);
    while end > front + free {
        let Some((at, length, count, live)) = unit(bytes, end) else { return false };
        if live && run == length || at < front + free {
            return false;
        }
        run = if live { length } else { 0 };
        if !live && bytes.iter().skip(span).take(length).any(|byte| *byte != 0) {
            return false;
        }
        span += length * count;
        room += (length + 3) * count;
        end = at;
    }
    span == front && room <= top && bytes[front..front + free].iter().all(|byte| *byte == 0)
}

/// Whether the block is an interval of slots of this length.
#[cfg_attr(apart, inline(never))]
fn is_slots(bytes: &[u8], slot: usize) -> bool {
    let top = bytes.len() - 4;
    let (front, free) = (number(bytes, top), number(bytes, top + 2) & 0x7FFF);
    if front + free > top {
        return false;
    }
    let (mut end, mut span, mut count) = (top, 0, 0);
    while end > front + free {
        if end < front + free + 3 {
            return false;
        }
        let live = match bytes[end - 3] {
            0x00 => true,
            0x04 => false,
            _ => return false,
        };
        if number(bytes, end - 2) != slot {
            return false;
        }
        if !live && bytes.iter().skip(span).take(slot).any(|byte| *byte != 0) {
            return false;
        }
        span += slot;
        count += 1;
        end -= 3;
    }
    let zero = bytes[front..front + free].iter().all(|byte| *byte == 0);
    span == front && count == top / (slot + 3) && zero
}

fn fill(block: &mut [u8], one: &[u8], other: &[u8], live: bool) {
    let mut writer = Writer::begin(block);
    for _ in 0..SIZE {
        writer.add(one, true);
        if !writer.add(other, live) {
            break;
        }
    }
    writer.end(false);
}

/// Every slot has an RDF of its own.
fn fill_slots(block: &mut [u8], slot: &[u8], live: bool) {
    let count = (SIZE - 4) / (slot.len() + 3);
    let length = (slot.len() as u16).to_be_bytes();
    let (mut front, mut back) = (0, SIZE - 4);
    for at in 0..count {
        let live = live || at % 2 == 0;
        let to = &mut block[front..front + slot.len()];
        if live { to.copy_from_slice(slot) } else { to.fill(0) }
        front += slot.len();
        back -= 3;
        block[back] = if live { 0x00 } else { 0x04 };
        block[back + 1..back + 3].copy_from_slice(&length);
    }
    block[front..back].fill(0);
    block[SIZE - 4..SIZE - 2].copy_from_slice(&(front as u16).to_be_bytes());
    block[SIZE - 2..].copy_from_slice(&((back - front) as u16).to_be_bytes());
}

fn sum(block: &[u8]) -> u64 {
    let mut total = 0;
    if is_interval(block) {
        let low = number(block, SIZE - 4) + (number(block, SIZE - 2) & 0x7FFF);
        let (mut end, mut front) = (SIZE - 4, 0);
        while end > low {
            let Some((at, length, count, live)) = unit(block, end) else { break };
            for _ in 0..count {
                let record = &block[front..front + length];
                if live {
                    total += u64::from(record[0]);
                }
                front += length;
            }
            end = at;
        }
    }
    total
}

fn sum_slots(block: &[u8], slot: usize) -> u64 {
    let mut total = 0;
    if is_slots(block, slot) {
        let low = number(block, SIZE - 4) + (number(block, SIZE - 2) & 0x7FFF);
        let (mut end, mut front) = (SIZE - 4, 0);
        while end > low {
            let record = &block[front..front + slot];
            if block[end - 3] == 0 {
                total += u64::from(record[0]);
            }
            front += slot;
            end -= 3;
        }
    }
    total
}

/// The least time of many tries, in nanoseconds.
fn least(mut run: impl FnMut(u64)) -> u128 {
    let tries = (0..TRIES).map(|_| {
        let start = Instant::now();
        for round in 0..ROUNDS {
            run(round);
        }
        start.elapsed().as_nanos()
    });
    tries.min().unwrap_or(0)
}

fn main() {
    let bytes = [7u8; 801];
    let mut block = [0u8; SIZE];
    for (one, other, live) in [
        (8usize, 8usize, true),
        (80, 80, true),
        (800, 800, true),
        (8, 9, true),
        (80, 81, true),
        (8, 8, false),
        (80, 80, false),
    ] {
        let wrote = least(|_| fill(black_box(&mut block), black_box(&bytes[..one]), black_box(&bytes[..other]), live));
        let mut total = 0;
        let read = least(|round| {
            block[0] = (round % 256) as u8;
            total += sum(black_box(&block[..]));
        });
        println!("records {one} {other} {live} {total} {wrote} {read}");
    }
    for (length, live) in [(8usize, true), (80, true), (8, false), (80, false)] {
        let wrote = least(|_| fill_slots(black_box(&mut block), black_box(&bytes[..length]), live));
        let mut total = 0;
        let read = least(|round| {
            block[0] = (round % 256) as u8;
            total += sum_slots(black_box(&block[..]), black_box(length));
        });
        println!("slots {length} {length} {live} {total} {wrote} {read}");
    }
}
