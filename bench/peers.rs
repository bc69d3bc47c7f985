//! The ordered set and the heap of Rust's library as timer queues, for the comparison, with the
//! same work as the wheels. A heap can't cancel: it counts and skips what was cancelled.
//! Writes `NAME SIZE COLUMN NANOSECONDS COUNT` for each measurement.
use std::cmp::Reverse;
use std::collections::{BTreeSet, BinaryHeap};
use std::hint::black_box;
use std::time::Instant;

const START: u64 = 1000;
const ROUNDS: usize = 9;

fn next(x: &mut u64) -> u64 {
    *x ^= *x << 13;
    *x ^= *x >> 7;
    *x ^= *x << 17;
    *x
}

trait Queue {
    const NAME: &'static str;
    fn new(size: usize) -> Self;
    fn arm(&mut self, id: u32, expires: u64);
    fn cancel(&mut self, id: u32);
    /// Takes out one timer that is due.
    fn take(&mut self, now: u64) -> Option<u32>;
}

struct Ordered {
    set: BTreeSet<(u64, u32)>,
    expiries: Vec<u64>,
}

impl Queue for Ordered {
    const NAME: &'static str = "BTreeSet";
    fn new(size: usize) -> Self {
        Ordered { set: BTreeSet::new(), expiries: vec![0; size] }
    }
    fn arm(&mut self, id: u32, expires: u64) {
        self.expiries[id as usize] = expires;
        self.set.insert((expires, id));
    }
    fn cancel(&mut self, id: u32) {
        self.set.remove(&(self.expiries[id as usize], id));
    }
    fn take(&mut self, now: u64) -> Option<u32> {
        match self.set.first() {
            Some(&(expires, _)) if expires <= now => self.set.pop_first().map(|entry| entry.1),
            _ => None,
        }
    }
}

struct Heap {
    heap: BinaryHeap<Reverse<(u64, u32, u32)>>,
    counts: Vec<u32>,
}

impl Queue for Heap {
    const NAME: &'static str = "BinaryHeap";
    fn new(size: usize) -> Self {
        Heap { heap: BinaryHeap::new(), counts: vec![0; size] }
    }
    fn arm(&mut self, id: u32, expires: u64) {
        self.counts[id as usize] += 1;
        self.heap.push(Reverse((expires, id, self.counts[id as usize])));
    }
    fn cancel(&mut self, id: u32) {
        self.counts[id as usize] += 1;
    }
    fn take(&mut self, now: u64) -> Option<u32> {
        while let Some(&Reverse((_, id, count))) = self.heap.peek() {
            if self.counts[id as usize] == count {
                break;
            }
            self.heap.pop();
        }
        match self.heap.peek() {
            Some(&Reverse((expires, id, _))) if expires <= now => {
                self.heap.pop();
                self.counts[id as usize] += 1;
                Some(id)
            }
            _ => None,
        }
    }
}

fn tell<Q: Queue>(size: usize, column: &str, from: Instant, count: u64) {
    println!("{} {size} {column} {} {count}", Q::NAME, from.elapsed().as_nanos());
}

fn armed<Q: Queue>(delays: &[u32]) -> Q {
    let mut queue = Q::new(delays.len());
    for (id, delay) in delays.iter().enumerate() {
        queue.arm(id as u32, START + u64::from(*delay));
    }
    queue
}

fn measure<Q: Queue>(delays: &[u32], order: &[u32]) {
    let size = delays.len();
    let mut queue = armed::<Q>(delays);
    for id in 0..size {
        queue.cancel(id as u32);
    }
    let from = Instant::now();
    for (id, delay) in delays.iter().enumerate() {
        queue.arm(id as u32, START + u64::from(*delay));
    }
    tell::<Q>(size, "arm", from, size as u64);
    let from = Instant::now();
    for id in order {
        queue.cancel(*id);
    }
    tell::<Q>(size, "cancel", from, size as u64);

    let mut queue = armed::<Q>(delays);
    let mut ran = 0u64;
    let from = Instant::now();
    for tick in 0..600 {
        while let Some(id) = queue.take(START + tick) {
            black_box(id);
            ran += 1;
        }
    }
    tell::<Q>(size, "expiry", from, ran);

    let mut queue = armed::<Q>(delays);
    let mut ran = 0u64;
    let mut from = Instant::now();
    for tick in 1..4501 {
        if tick == 501 {
            ran = 0;
            from = Instant::now();
        }
        let now = START + tick;
        while let Some(id) = queue.take(now) {
            queue.arm(id, now + u64::from(delays[(ran % size as u64) as usize]));
            ran += 1;
        }
    }
    tell::<Q>(size, "steady", from, ran);

    let mut queue = Q::new(size);
    for id in order {
        queue.arm(*id, START + 1_000_000 + u64::from(delays[*id as usize]));
    }
    let from = Instant::now();
    for turn in 0..200_000usize {
        let id = order[turn % size];
        let now = START + (turn as u64 >> 6 & 0xffff);
        if turn & 63 == 0 {
            black_box(queue.take(now));
        }
        queue.cancel(id);
        queue.arm(id, now + 1_000_000 + u64::from(delays[turn % size]));
    }
    tell::<Q>(size, "timeout", from, 200_000);
}

fn main() {
    for size in [64usize, 1024, 4096, 100_000] {
        let mut x = 88_172_645_463_325_252;
        let delays: Vec<u32> = (0..size).map(|_| 20 + (next(&mut x) % 481) as u32).collect();
        let mut order: Vec<u32> = (0..size as u32).collect();
        for i in (1..size).rev() {
            let j = (next(&mut x) % (i as u64 + 1)) as usize;
            order.swap(i, j);
        }
        for _ in 0..ROUNDS {
            measure::<Ordered>(&delays, &order);
            measure::<Heap>(&delays, &order);
        }
    }
}
