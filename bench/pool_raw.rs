//! What `bench/pool.py` compares the pool with: the same layout in plain Rust over raw memory, unchecked and unproved.
//!
//!     pool_raw SIZE COUNT
//!
//! It fills regions of SIZE items one after another, reads each item once in a scattered order and releases the region,
//! until COUNT items went through, and prints the sum of what was read.
use std::alloc::{alloc, realloc, Layout};
use std::env;
use std::ptr;

/// How far apart in the order of puts two reads stand that follow each other.
const STRIDE: usize = 7919;

const NONE: usize = usize::MAX;

/// A slot: an item with the slot of the item before it in its region, or, where it is free, the next free one.
struct Slot {
    item: u64,
    before: usize,
}

/// A region: its last slot and how many it has.
struct Region {
    number: u64,
    last: usize,
    count: u64,
}

#[derive(Clone, Copy)]
struct Node {
    #[allow(dead_code)]
    number: u64,
    #[allow(dead_code)]
    position: u64,
    slot: usize,
}

struct Pool {
    slots: *mut Slot,
    room: usize,
    used: usize,
    free: usize,
    begun: u64,
}

impl Pool {
    fn new() -> Pool {
        Pool { slots: ptr::null_mut(), room: 0, used: 0, free: NONE, begun: 0 }
    }

    fn begin(&mut self) -> Region {
        self.begun += 1;
        Region { number: self.begun, last: NONE, count: 0 }
    }

    #[inline]
    fn put(&mut self, region: &mut Region, item: u64) -> Node {
        unsafe {
            let slot = if self.free != NONE {
                let slot = self.free;
                self.free = (*self.slots.add(slot)).before;
                slot
            } else {
                if self.used == self.room {
                    self.grow();
                }
                self.used += 1;
                self.used - 1
            };
            self.slots.add(slot).write(Slot { item, before: region.last });
            let node = Node { number: region.number, position: region.count, slot };
            region.last = slot;
            region.count += 1;
            node
        }
    }

    #[cold]
    unsafe fn grow(&mut self) {
        let room = if self.room == 0 { 4 } else { self.room * 2 };
        let new = Layout::array::<Slot>(room).unwrap();
        self.slots = if self.room == 0 {
            alloc(new)
        } else {
            realloc(self.slots.cast(), Layout::array::<Slot>(self.room).unwrap(), new.size())
        }
        .cast();
        assert!(!self.slots.is_null());
        self.room = room;
    }

    #[inline]
    fn get(&self, node: Node) -> u64 {
        unsafe { (*self.slots.add(node.slot)).item }
    }

    /// Links the region's slots, which are linked already, before the free ones.
    fn release(&mut self, region: Region) {
        unsafe {
            let mut slot = region.last;
            while slot != NONE {
                let before = (*self.slots.add(slot)).before;
                (*self.slots.add(slot)).before = self.free;
                self.free = slot;
                slot = before;
            }
        }
    }
}

fn main() {
    let mut words = env::args().skip(1).map(|word| word.parse::<u64>().expect("a number"));
    let size = words.next().expect("a size");
    let count = words.next().expect("a count");
    let mut pool = Pool::new();
    let mut nodes = Vec::new();
    let mut sum = 0u64;
    for _ in 0..count / size {
        nodes.clear();
        let mut region = pool.begin();
        for item in 0..size {
            nodes.push(pool.put(&mut region, item));
        }
        let step = if nodes.len() > STRIDE { STRIDE } else { 1 };
        let mut at = 0;
        for _ in 0..nodes.len() {
            sum = sum.wrapping_add(pool.get(nodes[at]));
            at += step;
            if at >= nodes.len() {
                at -= nodes.len();
            }
        }
        pool.release(region);
    }
    println!("{sum}");
}
