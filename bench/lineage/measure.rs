//! Elements through three steps, to be measured from outside: `PROGRAM ELEMENTS`. A job of `a` for each element, one of `b` for
//! each of those, and one of `c` for each of those, which also binds the whole list of `a`'s results. It prints the records,
//! the bytes that they hold once they are noted, and the most that they held meanwhile.
use crate::shim::*;
use crate::{Leaf, Leaves, Mark, Part, Parts, Records};
use std::alloc::{GlobalAlloc, Layout, System};
use std::sync::atomic::{AtomicUsize, Ordering};

static HELD: AtomicUsize = AtomicUsize::new(0);
static MOST: AtomicUsize = AtomicUsize::new(0);

struct Counting;
unsafe impl GlobalAlloc for Counting {
    unsafe fn alloc(&self, layout: Layout) -> *mut u8 {
        let held = HELD.load(Ordering::Relaxed) + layout.size();
        HELD.store(held, Ordering::Relaxed);
        if held > MOST.load(Ordering::Relaxed) {
            MOST.store(held, Ordering::Relaxed);
        }
        unsafe { System.alloc(layout) }
    }
    unsafe fn dealloc(&self, at: *mut u8, layout: Layout) {
        HELD.store(HELD.load(Ordering::Relaxed) - layout.size(), Ordering::Relaxed);
        unsafe { System.dealloc(at, layout) }
    }
}

#[global_allocator]
static COUNTING: Counting = Counting;

type Done<T> = Result<T, NoMemory>;

fn job(alloc: Global, step: &str, index: u32) -> Done<JobName> {
    Ok(Sequence::of(one(alloc, (Text::from_str(alloc, step)?, Place::of(alloc, &[index])?))?))
}

fn made(alloc: Global, step: &str, index: u32) -> Done<Mark> {
    Ok(Mark::Made(job(alloc, step, index)?))
}

fn results(alloc: Global, step: &str, count: u32) -> Done<Parts> {
    let mut parts = Vec::with_capacity(alloc, count as usize)?;
    for index in 0..count {
        parts.push(Part::Single(made(alloc, step, index)?))?;
    }
    Ok(Sequence::of(parts))
}

#[inline(never)]
fn note_all(alloc: Global, count: u32) -> Done<Records> {
    let mut records = Records::start(alloc)?;
    for index in 0..count {
        let mark = Mark::Given(Text::from_str(alloc, "x")?, Place::of(alloc, &[index])?);
        records.note(alloc, job(alloc, "a", index)?, Sequence::of(one(alloc, mark)?))?;
    }
    for index in 0..count {
        let used = Sequence::of(one(alloc, made(alloc, "a", index)?)?);
        records.note(alloc, job(alloc, "b", index)?, used)?;
    }
    let Part::Group(list) = records.share(results(alloc, "a", count)?)? else {
        panic!("a list that is shared is a group");
    };
    for index in 0..count {
        let mut parts = Vec::with_capacity(alloc, 2)?;
        parts.push(Part::Single(made(alloc, "b", index)?))?;
        parts.push(Part::Group(list))?;
        records.note_parts(alloc, job(alloc, "c", index)?, Sequence::of(parts))?;
    }
    Ok(records)
}

fn leaves(alloc: Global, count: u32) -> Done<Leaves> {
    let mut leaves = Vec::with_capacity(alloc, count as usize)?;
    for index in 0..count {
        let used = Sequence::of(one(alloc, made(alloc, "c", index)?)?);
        leaves.push(Leaf { port: Text::from_str(alloc, "out")?, place: Place::of(alloc, &[index])?, used })?;
    }
    Ok(Sequence::of(leaves))
}

#[inline(never)]
fn go_back(alloc: Global, records: &Records, count: u32) -> Done<usize> {
    let used = Sequence::of(one(alloc, made(alloc, "c", count / 2)?)?);
    Ok(records.backward(alloc, &used)?.as_slice().len())
}

#[inline(never)]
fn go_on(alloc: Global, records: &Records, leaves: &Leaves, count: u32) -> Done<usize> {
    let place = Place::of(alloc, &[count / 2])?;
    Ok(records.forward(alloc, leaves, &Text::from_str(alloc, "x")?, &place)?.as_slice().len())
}

#[inline(never)]
fn list_jobs(alloc: Global, records: &Records) -> Done<usize> {
    Ok(records.by_step(alloc, &Text::from_str(alloc, "b")?)?.as_slice().len())
}

pub fn main() {
    let count: u32 = std::env::args().nth(1).unwrap().parse().unwrap();
    let alloc = Global;
    let before = HELD.load(Ordering::Relaxed);
    let records = note_all(alloc, count).unwrap();
    let held = HELD.load(Ordering::Relaxed) - before;
    let most = MOST.load(Ordering::Relaxed) - before;
    let leaves = leaves(alloc, count).unwrap();
    let all = count as usize;
    assert_eq!(go_back(alloc, &records, count).unwrap(), all);
    assert_eq!(go_on(alloc, &records, &leaves, count).unwrap(), all);
    assert_eq!(list_jobs(alloc, &records).unwrap(), all);
    println!("{} {held} {most}", 3 * all);
    std::process::exit(0);
}
