//! Partial trees on made-up events, each call compared with what the events so far say: `PROGRAM [SEED]`.
use crate::shim::{Global, Place, ASKED, REFUSED, TIGHT};
use crate::tv_pool::{Pool, Region};
use crate::tv_stream::{ArriveRefused, CloseRefused, PartKind, Partial, Slot};
use std::collections::BTreeMap;
use std::ops::Bound::{Excluded, Unbounded};

pub fn main() {
    let seed = std::env::args().nth(1).map_or(1, |w| w.parse().unwrap());
    all_orders();
    many_parts(seed);
    refused_memory(seed);
}

// ---- events, and what they say

#[derive(Clone, Copy, Debug, PartialEq)]
enum What {
    Item(u64, bool),
    Close(u32),
}

type Event = (Vec<u32>, What);

/// What came of an event: the least length of a prefix that is whole by it, or the refusal.
#[derive(Clone, Copy, Debug, PartialEq)]
enum Came {
    Whole(Option<u32>),
    NoPlace,
    Taken,
    Short(u32, u64),
    NoMemory,
}

/// The events that were taken, by their places.
#[derive(Clone)]
struct Plain {
    depth: usize,
    items: BTreeMap<Vec<u32>, (u64, bool)>,
    lengths: BTreeMap<Vec<u32>, u32>,
}

impl Plain {
    fn new(depth: usize) -> Plain {
        Plain {
            depth,
            items: BTreeMap::new(),
            lengths: BTreeMap::new(),
        }
    }

    /// The last index inside a place at which something is known.
    fn last(&self, place: &[u32]) -> Option<u32> {
        let mut past = place.to_vec();
        let end = match past.last_mut() {
            Some(index) => match index.checked_add(1) {
                Some(next) => {
                    *index = next;
                    Excluded(past)
                }
                None => panic!("an index that the trial doesn't use"),
            },
            None => Unbounded,
        };
        let inside = (Excluded(place.to_vec()), end);
        let item = self.items.range(inside.clone()).next_back();
        let list = self.lengths.range(inside).next_back();
        let item = item.map(|it| it.0[place.len()]);
        item.max(list.map(|it| it.0[place.len()]))
    }

    fn kind(&self, place: &[u32]) -> PartKind {
        if self.items.contains_key(place) {
            PartKind::Item
        } else if let Some(length) = self.lengths.get(place) {
            PartKind::Closed(*length)
        } else if self.last(place).is_some() {
            PartKind::Growing
        } else {
            PartKind::Wanting
        }
    }

    fn is_whole(&self, place: &[u32]) -> bool {
        if self.items.contains_key(place) {
            return true;
        }
        let Some(length) = self.lengths.get(place) else {
            return false;
        };
        let mut part = place.to_vec();
        part.push(0);
        (0..*length).all(|index| {
            part[place.len()] = index;
            self.is_whole(&part)
        })
    }

    fn is_marked(&self, place: &[u32]) -> bool {
        self.items
            .range(place.to_vec()..)
            .take_while(|it| it.0.starts_with(place))
            .any(|it| it.1 .1)
    }

    fn is_place(&self, place: &[u32]) -> bool {
        (0..place.len()).all(|n| {
            let list = &place[..n];
            let fits = self
                .lengths
                .get(list)
                .is_none_or(|length| place[n] < *length);
            fits && !self.items.contains_key(list)
        })
    }

    fn take(&mut self, place: &[u32], what: What) {
        match what {
            What::Item(item, marked) => {
                self.items.insert(place.to_vec(), (item, marked));
            }
            What::Close(length) => {
                self.lengths.insert(place.to_vec(), length);
            }
        }
    }

    /// Why an event isn't taken.
    fn refusal(&self, place: &[u32], what: What) -> Option<Came> {
        let kind = self.kind(place);
        match what {
            What::Item(..) if place.len() > self.depth || !self.is_place(place) => {
                Some(Came::NoPlace)
            }
            What::Item(..) if kind != PartKind::Wanting => Some(Came::Taken),
            What::Item(..) => None,
            What::Close(_) if place.len() >= self.depth || !self.is_place(place) => {
                Some(Came::NoPlace)
            }
            What::Close(length) => match kind {
                PartKind::Item => Some(Came::NoPlace),
                PartKind::Closed(_) => Some(Came::Taken),
                _ => match self.last(place) {
                    Some(last) if last >= length => Some(Came::Short(length, last as u64 + 1)),
                    _ => None,
                },
            },
        }
    }

    fn least_whole(&self, place: &[u32]) -> Option<u32> {
        (0..=place.len())
            .find(|n| self.is_whole(&place[..*n]))
            .map(|n| n as u32)
    }
}

// ---- a tree, and the same of it

struct Tried {
    pool: Pool<Slot<u64>>,
    region: Region,
    tree: Partial<u64>,
    plain: Plain,
    calls: u64,
}

impl Tried {
    fn new(depth: usize) -> Tried {
        let (tried, again) = Tried::begun(depth);
        assert_eq!(again, 0);
        tried
    }

    /// A new tree, and how many of the calls that make it were refused memory and made again.
    fn begun(depth: usize) -> (Tried, u64) {
        let mut again = 0;
        let mut pool = Pool::new(Global);
        let region = pool.begin().unwrap_or_else(|_| {
            again += 1;
            assert_eq!(pool.live(), 0);
            pool.begin().unwrap()
        });
        let tree = Partial::start(&mut pool, &region, depth as u32).unwrap_or_else(|_| {
            again += 1;
            Partial::start(&mut pool, &region, depth as u32).unwrap()
        });
        assert_eq!(pool.live(), 1);
        let tried = Tried {
            pool,
            region,
            tree,
            plain: Plain::new(depth),
            calls: 0,
        };
        (tried, again)
    }

    /// Each second call is one that answers no more than that it is done.
    fn told(&mut self, place: &[u32], what: What) -> Came {
        let at = Place::of(place);
        self.calls += 1;
        let plainly = self.calls % 2 == 0;
        match what {
            What::Item(item, marked) => {
                let (tree, pool) = (&mut self.tree, &mut self.pool);
                let answer = if plainly && !marked {
                    tree.arrive(pool, &self.region, &at, item)
                        .map(|()| self.least_seen(place))
                } else {
                    tree.arrive_marked(pool, &self.region, &at, item, marked)
                        .map(Some)
                };
                match answer {
                    Ok(least) => Came::Whole(least),
                    Err(refused) => {
                        let (came, back) = match refused {
                            ArriveRefused::NoSuchPlace(back) => (Came::NoPlace, back),
                            ArriveRefused::Occupied(back) => (Came::Taken, back),
                            ArriveRefused::NoMemory(back) => (Came::NoMemory, back),
                        };
                        assert_eq!(back, item, "the item given back at {place:?}");
                        came
                    }
                }
            }
            What::Close(length) => {
                let (tree, pool) = (&mut self.tree, &mut self.pool);
                let answer = if plainly {
                    tree.close(pool, &self.region, &at, length)
                        .map(|()| self.least_seen(place))
                } else {
                    tree.close_whole(pool, &self.region, &at, length)
                };
                match answer {
                    Ok(least) => Came::Whole(least),
                    Err(CloseRefused::NoSuchPlace) => Came::NoPlace,
                    Err(CloseRefused::AlreadyClosed) => Came::Taken,
                    Err(CloseRefused::WrongLength { asked, needed }) => Came::Short(asked, needed),
                    Err(CloseRefused::NoMemory) => Came::NoMemory,
                }
            }
        }
    }

    fn least_seen(&self, place: &[u32]) -> Option<u32> {
        (0..=place.len())
            .find(|n| self.tree.whole_at(&self.pool, &Place::of(&place[..*n])))
            .map(|n| n as u32)
    }

    fn foretold(&self, place: &[u32], what: What) -> Option<u32> {
        let at = Place::of(place);
        match what {
            What::Item(..) => Some(self.tree.whole_by_arrival(&self.pool, &at)),
            What::Close(length) => self.tree.whole_by_close(&self.pool, &at, length),
        }
    }

    /// Does an event, compares what came of it, and says whether it was taken.
    fn does(&mut self, place: &[u32], what: What) -> bool {
        if let Some(refusal) = self.plain.refusal(place, what) {
            assert_eq!(self.told(place, what), refusal, "{place:?} {what:?}");
            return false;
        }
        let before = self.foretold(place, what);
        let came = self.told(place, what);
        if came == Came::NoMemory {
            return false;
        }
        self.plain.take(place, what);
        let least = self.plain.least_whole(place);
        assert_eq!(came, Came::Whole(least), "{place:?} {what:?}");
        assert_eq!(before, least, "before {place:?} {what:?}");
        true
    }

    fn looks(&self, place: &[u32]) {
        let at = Place::of(place);
        let item = self.plain.items.get(place).map(|it| it.0);
        let seen = (
            self.tree.kind_at(&self.pool, &at),
            self.tree.item_at(&self.pool, &at),
            self.tree.part_at(&self.pool, &at).copied(),
            self.tree.whole_at(&self.pool, &at),
            self.tree.marked_at(&self.pool, &at),
        );
        let said = (
            self.plain.kind(place),
            item,
            item,
            self.plain.is_whole(place),
            self.plain.is_marked(place),
        );
        assert_eq!(seen, said, "{place:?}");
    }
}

// ---- all orders of all events of small trees

enum Shape {
    Item(bool),
    List(Vec<Shape>),
}

/// All shapes of a depth with so many events.
fn shapes(depth: usize, events: usize) -> Vec<Shape> {
    let mut all = Vec::new();
    if events == 1 {
        all.push(Shape::Item(depth > 0));
    }
    if depth > 0 && events > 0 {
        all.extend(lists(depth, events - 1).into_iter().map(Shape::List));
    }
    all
}

fn lists(depth: usize, events: usize) -> Vec<Vec<Shape>> {
    let mut all = Vec::new();
    if events == 0 {
        all.push(Vec::new());
    }
    for first in 1..=events {
        for one in 0..shapes(depth - 1, first).len() {
            for mut rest in lists(depth, events - first) {
                rest.insert(0, shapes(depth - 1, first).swap_remove(one));
                all.push(rest);
            }
        }
    }
    all
}

fn events_of(shape: &Shape, place: &mut Vec<u32>, events: &mut Vec<Event>) {
    match shape {
        Shape::Item(marked) => {
            events.push((place.clone(), What::Item(events.len() as u64 + 7, *marked)))
        }
        Shape::List(parts) => {
            events.push((place.clone(), What::Close(parts.len() as u32)));
            for (index, part) in parts.iter().enumerate() {
                place.push(index as u32);
                events_of(part, place, events);
                place.pop();
            }
        }
    }
}

/// All places of so many indices at most, each at most so great, and one inside each of the longest.
fn places(depth: usize, most: u32) -> Vec<Vec<u32>> {
    let mut all = vec![Vec::new()];
    let mut last = all.clone();
    for level in 0..=depth {
        let most = if level < depth { most } else { 0 };
        last = last
            .iter()
            .flat_map(|place| {
                (0..=most).map(move |index| {
                    let mut place = place.clone();
                    place.push(index);
                    place
                })
            })
            .collect();
        all.extend(last.clone());
    }
    all
}

/// The next order of these numbers; none after the last.
fn next_order(order: &mut [usize]) -> bool {
    let Some(at) = (1..order.len()).rev().find(|at| order[at - 1] < order[*at]) else {
        return false;
    };
    let other = (at..order.len())
        .rev()
        .find(|other| order[at - 1] < order[*other])
        .unwrap();
    order.swap(at - 1, other);
    order[at..].reverse();
    true
}

fn all_orders() {
    let (mut trees, mut orders, mut tried) = (0u64, 0u64, 0u64);
    for (depth, most) in [(1, 7), (2, 6), (3, 5)] {
        for shape in (1..=most).flat_map(|events| shapes(depth, events)) {
            let mut events = Vec::new();
            events_of(&shape, &mut Vec::new(), &mut events);
            let greatest = events.iter().flat_map(|it| it.0.clone()).max().unwrap_or(0);
            let looked = places(depth, greatest + 1);
            trees += 1;
            let mut order: Vec<usize> = (0..events.len()).collect();
            loop {
                tried += one_order(depth, &events, &order, &looked);
                orders += 1;
                if !next_order(&mut order) {
                    break;
                }
            }
        }
    }
    println!("all orders: {trees} trees, {orders} orders, {tried} calls that change or are refused, no difference");
}

/// Events in an order, and after each, every look and every call that is refused.
fn one_order(depth: usize, events: &[Event], order: &[usize], looked: &[Vec<u32>]) -> u64 {
    let mut tried = Tried::new(depth);
    let mut calls = 0;
    for at in order {
        let (place, what) = &events[*at];
        assert!(
            tried.does(place, *what),
            "{place:?} {what:?} of {events:?} in {order:?}"
        );
        calls += 1;
        for place in looked {
            for what in [What::Item(3, true), What::Close(0), What::Close(2)] {
                if tried.plain.refusal(place, what).is_some() {
                    tried.does(place, what);
                    calls += 1;
                }
            }
        }
        for place in looked {
            tried.looks(place);
        }
    }
    assert!(tried.tree.whole_at(&tried.pool, &Place::of(&[])));
    calls
}

// ---- random events in long lists

struct Random(u64);

impl Random {
    fn new(seed: u64) -> Random {
        let mut random = Random(seed.wrapping_mul(0x9E37_79B9_7F4A_7C15) | 1);
        for _ in 0..8 {
            random.next();
        }
        random
    }

    fn next(&mut self) -> u64 {
        self.0 ^= self.0 << 13;
        self.0 ^= self.0 >> 7;
        self.0 ^= self.0 << 17;
        self.0 >> 11
    }

    /// A number below `count`.
    fn below(&mut self, count: u32) -> u32 {
        (self.next() % u64::from(count)) as u32
    }
}

fn many_parts(seed: u64) {
    let mut taken = 0;
    for depth in [1, 2] {
        let mut random = Random::new(seed + depth as u64);
        let mut tried = Tried::new(depth);
        for number in 0..10_000 {
            // Most events are in a few of the lists, so that events meet.
            let mut place = Vec::new();
            let length = match random.below(20) {
                0 => depth as u32 + 1,
                1..=4 => random.below(depth as u32 + 1),
                _ => depth as u32,
            };
            for level in 0..length {
                let few = level == 0 && depth > 1 && random.below(4) > 0;
                place.push(if few {
                    random.below(5) * 24_999
                } else {
                    random.below(100_000)
                });
            }
            let what = if random.below(20) == 0 {
                What::Close(if random.below(20) == 0 {
                    random.below(100_000)
                } else {
                    100_000
                })
            } else {
                What::Item(number, random.below(50) == 0)
            };
            // An item for the whole tree would end it.
            if place.is_empty() && matches!(what, What::Item(..)) {
                continue;
            }
            taken += u64::from(tried.does(&place, what));
            for n in 0..=place.len() {
                tried.looks(&place[..n]);
            }
            tried.looks(&[random.below(100_001)]);
        }
    }
    println!("many parts: 2 trees of 10,000 events each in lists of up to 100,000 parts, {taken} taken, no difference");
    whole_list(seed);
}

/// A list of 100,000 parts becomes whole by its last event, whichever it is.
fn whole_list(seed: u64) {
    const COUNT: u32 = 100_000;
    for close_at in [0, COUNT / 2, COUNT] {
        let mut random = Random::new(seed);
        let mut order: Vec<u32> = (0..COUNT).collect();
        for at in (1..order.len()).rev() {
            order.swap(at, random.below(at as u32 + 1) as usize);
        }
        let mut tried = Tried::new(1);
        for number in 0..=COUNT {
            let (place, what) = if number == close_at {
                (vec![], What::Close(COUNT))
            } else {
                let at = if number < close_at {
                    number
                } else {
                    number - 1
                };
                (
                    vec![order[at as usize]],
                    What::Item(u64::from(number), false),
                )
            };
            assert!(!tried.tree.whole_at(&tried.pool, &Place::of(&[])));
            let least = match what {
                _ if number == COUNT => Some(0),
                What::Item(..) => Some(1),
                What::Close(_) => None,
            };
            assert_eq!(tried.told(&place, what), Came::Whole(least));
        }
        assert!(tried.tree.whole_at(&tried.pool, &Place::of(&[])));
    }
    println!("many parts: 3 lists of 100,000 parts, whole by their last event, no difference");
}

// ---- memory is refused

fn made_up_events(random: &mut Random, depth: usize, count: usize) -> Vec<Event> {
    let mut events = Vec::new();
    for number in 0..count {
        let length = random.below(depth as u32 + 2);
        let place: Vec<u32> = (0..length).map(|_| random.below(4)).collect();
        let what = if random.below(3) == 0 {
            What::Close(random.below(5))
        } else {
            What::Item(number as u64, random.below(5) == 0)
        };
        if !place.is_empty() || what == What::Close(4) {
            events.push((place, what));
        }
    }
    events
}

/// The same events without a refusal, and with each time that memory is asked refused: the call says so, changes nothing,
/// and is taken as ever when it is made again. The calls that make the tree are among them.
fn refused_memory(seed: u64) {
    let (mut refusals, mut first) = (0, 0);
    TIGHT.set(true);
    for number in 0..200 {
        let mut random = Random::new(seed + number);
        let depth = 1 + (number % 3) as usize;
        let events = made_up_events(&mut random, depth, 40);
        let looked = places(depth, 4);
        ASKED.set(0);
        REFUSED.set(0);
        let mut tried = Tried::new(depth);
        let asked_first = ASKED.get();
        assert!(asked_first > 1);
        for (place, what) in &events {
            tried.does(place, *what);
        }
        let (asked, whole) = (ASKED.get(), tried);
        for refused in 1..=asked {
            ASKED.set(0);
            REFUSED.set(refused);
            let (mut tried, again) = Tried::begun(depth);
            assert_eq!(again, u64::from(refused <= asked_first));
            first += again;
            refusals += again;
            for (place, what) in &events {
                let before = ASKED.get();
                let taken = tried.does(place, *what);
                if before < refused && refused <= ASKED.get() {
                    assert!(!taken, "{place:?} {what:?} with memory refused");
                    refusals += 1;
                    for place in &looked {
                        tried.looks(place);
                    }
                    assert!(tried.does(place, *what), "{place:?} {what:?} again");
                }
            }
            assert_eq!(tried.plain.items, whole.plain.items);
            assert_eq!(tried.plain.lengths, whole.plain.lengths);
            for place in &looked {
                tried.looks(place);
            }
        }
    }
    TIGHT.set(false);
    println!("refused memory: 200 trees, each of {refusals} times that memory was asked refused once, {first} of them to begin a region or start a tree, no difference");
}
