//! A list whose parts arrive, to be measured from outside: `PROGRAM ORDER COUNT`.
use crate::shim::{Global, Place};
use crate::tv_pool::{Pool, Region};
use crate::tv_stream::{Partial, Slot};
use std::alloc::{GlobalAlloc, Layout, System};
use std::sync::atomic::{AtomicUsize, Ordering};

// How many bytes were taken at once at most.
struct Counting;

static TAKEN: AtomicUsize = AtomicUsize::new(0);
static MOST: AtomicUsize = AtomicUsize::new(0);

unsafe impl GlobalAlloc for Counting {
    unsafe fn alloc(&self, layout: Layout) -> *mut u8 {
        let taken = TAKEN.fetch_add(layout.size(), Ordering::Relaxed) + layout.size();
        MOST.fetch_max(taken, Ordering::Relaxed);
        System.alloc(layout)
    }

    unsafe fn dealloc(&self, at: *mut u8, layout: Layout) {
        TAKEN.fetch_sub(layout.size(), Ordering::Relaxed);
        System.dealloc(at, layout)
    }
}

#[global_allocator]
static ALLOCATOR: Counting = Counting;

/// An item of the size of a piece of a value.
type Piece = [u64; 5];

pub fn main() {
    let words: Vec<String> = std::env::args().collect();
    let order = order_of(&words[1], words[2].parse().unwrap());
    let mut pool = Pool::new(Global);
    let region = pool.begin().unwrap();
    let mut tree: Partial<Piece> = Partial::start(&mut pool, &region, 1).unwrap();
    let before = TAKEN.load(Ordering::Relaxed);
    put_all_parts(&mut pool, &region, &mut tree, &order);
    let bytes = (TAKEN.load(Ordering::Relaxed) - before) / order.len();
    let node = std::mem::size_of::<Slot<Piece>>();
    assert!(tree.whole_at(&pool, &Place::of(&[])));
    println!("{bytes} bytes a part, {node} of them a node's");
}

#[inline(never)]
fn put_all_parts(
    pool: &mut Pool<Slot<Piece>>,
    region: &Region,
    tree: &mut Partial<Piece>,
    order: &[u32],
) {
    for index in order {
        let item = [*index as u64; 5];
        tree.arrive_marked(pool, region, &Place::of(&[*index]), item, false)
            .ok()
            .unwrap();
    }
    let least = tree.close_whole(pool, region, &Place::of(&[]), order.len() as u32);
    assert_eq!(least, Ok(Some(0)));
}

fn order_of(word: &str, count: u32) -> Vec<u32> {
    let mut order: Vec<u32> = (0..count).collect();
    match word {
        "forward" => {}
        "backward" => order.reverse(),
        "random" => {
            let mut x = 0x9E37_79B9_7F4A_7C15u64;
            for at in (1..order.len()).rev() {
                x ^= x << 13;
                x ^= x >> 7;
                x ^= x << 17;
                order.swap(at, (x >> 11) as usize % (at + 1));
            }
        }
        _ => panic!("forward, backward or random"),
    }
    order
}
