//! Matchers on made-up strategies and values, told in made-up orders, and looked at after each telling against the
//! iteration of the whole values: `PROGRAM SEED COUNT`. With a third word, `PROGRAM SEED COUNT refused`, each is told as often as it
//! takes allocations, with another of them refused each time. A held telling takes none.

use crate::shim::*;
use crate::{Kind, Matched, Matcher, Told};
use std::vec::Vec;

type Result<T> = std::result::Result<T, String>;

impl From<NoMemory> for String {
    fn from(_: NoMemory) -> String {
        "no memory".to_string()
    }
}

macro_rules! bail {
    ($($t:tt)*) => { return Err(format!($($t)*)) };
}

macro_rules! ensure {
    ($c:expr, $($t:tt)*) => { if !$c { bail!($($t)*) } };
}

pub fn main() {
    let words: Vec<u64> = std::env::args()
        .skip(1)
        .take(2)
        .map(|w| w.parse().unwrap())
        .collect();
    let refused = std::env::args().len() > 3;
    if let Err(why) = worked_row(Global).and_then(|()| deep_row(Global)) {
        println!("worked row: {why}");
        std::process::exit(1);
    }
    let mut tally = Tally {
        tellings: 0,
        items: 0,
        faulty: 0,
        reserves: 0,
        refusals: 0,
    };
    for i in 0..words[1] {
        let seed = words[0].wrapping_add(i);
        if let Err(why) = trial(seed, refused, &mut tally) {
            println!("trial {i}: {why}");
            std::process::exit(1);
        }
    }
    let Tally {
        tellings,
        items,
        faulty,
        reserves,
        refusals,
    } = tally;
    println!("{} strategies, {tellings} tellings, {items} items, {faulty} faulty jobs, {reserves} reserves, {refusals} refusals, no difference", words[1]);
}

/// One strategy, with nothing refused; and then again and again, with each allocation refused in turn.
fn trial(seed: u64, refused: bool, tally: &mut Tally) -> Result<()> {
    run(Global, &mut Random::new(seed), tally, None)?;
    let mut number = 0;
    while refused {
        let before = tally.refusals;
        run(Global, &mut Random::new(seed), tally, Some(number))
            .map_err(|why| format!("where allocation {number} is refused: {why}"))?;
        if tally.refusals == before {
            return Ok(());
        }
        number += 1;
    }
    Ok(())
}

/// What contracts see of a matcher: what is shown, in order, and then what is ahead; how much is shown, and how much has come out.
fn seen(matcher: &Matcher) -> (Vec<(Vec<u32>, Kind)>, usize, usize) {
    let mut items = Vec::new();
    for at in 0..matcher.ahead() {
        let (place, kind) = matcher.item_ahead(at);
        items.push((place.to_vec(), kind));
    }
    for at in 0..matcher.shown() {
        let (place, kind) = matcher.item(at);
        assert!(items[at] == (place.to_vec(), kind));
    }
    (items, matcher.shown(), matcher.given())
}

/// Makes a call; None where it is refused, and then what is seen is held against what was seen before.
fn unless_refused<T>(
    matcher: &mut Matcher,
    tally: &mut Tally,
    mut call: impl FnMut(&mut Matcher) -> std::result::Result<T, NoMemory>,
) -> Result<Option<T>> {
    let before = seen(matcher);
    if let Ok(answer) = call(matcher) {
        return Ok(Some(answer));
    }
    tally.refusals += 1;
    ensure!(seen(matcher) == before, "a refused call changed something");
    Ok(None)
}

/// The same, and where the call is refused it is made again.
fn once_more<T>(
    matcher: &mut Matcher,
    tally: &mut Tally,
    mut call: impl FnMut(&mut Matcher) -> std::result::Result<T, NoMemory>,
) -> Result<T> {
    match unless_refused(matcher, tally, &mut call)? {
        Some(answer) => Ok(answer),
        None => Ok(call(matcher)?),
    }
}

// ---- one leaf of mismatch 2, told its jobs before the lists that they stand in

fn worked_row(alloc: Global) -> Result<()> {
    let tree = Tree::Leaf("a".to_string());
    let mut matcher = Matcher::start(alloc, &tree, &Sequence::of(vec![("a".to_string(), 2)]))?;
    let job = |place: &[u32]| Say {
        leaf: 0,
        place: place.to_vec(),
        what: What::Value,
    };
    let list = |place: &[u32], length| Say {
        leaf: 0,
        place: place.to_vec(),
        what: What::Close(length),
    };
    let says = [
        job(&[2, 1]),
        job(&[0, 0]),
        list(&[], 3),
        list(&[1], 0),
        list(&[0], 1),
    ];
    let mut tolds = Vec::new();
    for say in &says {
        tolds.push(listed(alloc, say)?);
    }
    let answer = matcher.reserve(&Sequence::of(tolds))?;
    ensure!(answer == 5, "reserve answers {answer}");
    let mut text = String::new();
    for say in &says {
        tell(alloc, &mut matcher, say)?;
        while let Some((place, kind)) = matcher.first() {
            text.push_str(&format!("{:?} {place:?}; ", stands(kind)));
            matcher.pass();
        }
    }
    ensure!(
        text
            == "Job(false) [2, 1]; Job(false) [0, 0]; Closed(3) []; Closed(0) [1]; Closed(1) [0]; ",
        "{text}"
    );
    Ok(())
}

// ---- one leaf of mismatch 40: a place of 40 indices comes out without memory

fn deep_row(alloc: Global) -> Result<()> {
    let tree = Tree::Leaf("a".to_string());
    let mut matcher = Matcher::start(alloc, &tree, &Sequence::of(vec![("a".to_string(), 40)]))?;
    for last in 0..3 {
        let mut place = vec![7; 39];
        place.push(last);
        let what = What::Value;
        let say = Say { leaf: 0, place, what };
        if last == 1 {
            matcher.reserve(&Sequence::of(vec![listed(alloc, &say)?]))?;
        }
        tell(alloc, &mut matcher, &say)?;
        if last == 1 {
            matcher.pass();
        }
    }
    let before = taken();
    for last in [1, 2] {
        let Some(Matched::Job(place)) = matcher.next() else {
            bail!("nothing comes out");
        };
        ensure!(place.as_slice().len() == 40 && place.as_slice()[39] == last, "another place");
    }
    ensure!(matcher.next().is_none() && taken() == before, "more, or by memory");
    Ok(())
}

// ---- numbers that are made up from a seed

pub struct Random(u64);

impl Random {
    pub fn new(seed: u64) -> Random {
        let mut random = Random(seed.wrapping_mul(0x9E37_79B9_7F4A_7C15) ^ 0x1234_5678_9ABC_DEF1);
        for _ in 0..8 {
            random.next();
        }
        random
    }

    fn next(&mut self) -> u64 {
        let mut x = self.0;
        if x == 0 {
            x = 1;
        }
        x ^= x << 13;
        x ^= x >> 7;
        x ^= x << 17;
        self.0 = x;
        x >> 11
    }

    /// A number below `count`.
    pub fn below(&mut self, count: usize) -> usize {
        (self.next() % (count as u64)) as usize
    }

    /// Yes once in so many times.
    pub fn once_in(&mut self, count: usize) -> bool {
        self.below(count) == 0
    }
}

// ---- made-up strategies, and the walks of made-up values

pub enum Shape {
    Leaf(usize),
    Cross(Vec<Shape>),
    Dot(Vec<Shape>),
    Prefix(std::boxed::Box<Shape>, std::boxed::Box<Shape>),
}

/// What a leaf walks of its value, each node with the number of its telling.
pub enum Walk {
    Bound(usize, bool),
    Fault(usize),
    List(usize, Vec<Walk>),
}

/// What is told.
#[derive(Clone, Copy)]
pub enum What {
    Value,
    FaultyValue,
    Fault,
    Close(u32),
}

pub struct Say {
    pub leaf: u32,
    pub place: Vec<u32>,
    pub what: What,
}

/// A strategy of so many leaves, of this depth; the depths of its leaves are put behind `depths`.
pub fn shape(
    alloc: Global,
    random: &mut Random,
    leaves: usize,
    depth: usize,
    depths: &mut Vec<usize>,
) -> Result<Shape> {
    if leaves == 0 {
        return Ok(Shape::Cross(Vec::new()));
    }
    if leaves == 1 && !random.once_in(6) {
        depths.push(depth);
        return Ok(Shape::Leaf(depths.len() - 1));
    }
    if leaves > 1 && random.once_in(3) {
        let count = 1 + random.below(leaves - 1);
        let levels = random.below(depth + 1);
        let first = shape(alloc, random, count, levels, depths)?;
        let second = shape(alloc, random, leaves - count, depth, depths)?;
        return Ok(Shape::Prefix(std::boxed::Box::new(first), std::boxed::Box::new(second)));
    }
    let mut children = Vec::new();
    let dot = random.once_in(2);
    let mut left = leaves;
    let mut deep = depth;
    while left > 0 {
        let count = if leaves == 1 {
            1
        } else {
            1 + random.below(left.min(leaves - 1))
        };
        left -= count;
        let levels = if dot {
            depth
        } else if left == 0 {
            deep
        } else {
            random.below(deep + 1)
        };
        if !dot {
            deep -= levels;
        }
        children.push(shape(alloc, random, count, levels, depths)?);
        if !dot && random.once_in(12) {
            children.push(Shape::Cross(Vec::new()));
        }
    }
    if dot {
        Ok(Shape::Dot(children))
    } else {
        Ok(Shape::Cross(children))
    }
}

fn name(alloc: Global, leaf: usize) -> Result<Name> {
    let names = ["a", "b", "c", "d", "e", "f"];
    Ok(names[leaf].to_string())
}

pub fn tree(alloc: Global, shape: &Shape) -> Result<Tree> {
    match shape {
        Shape::Leaf(leaf) => Ok(Tree::Leaf(name(alloc, *leaf)?)),
        Shape::Cross(shapes) => Ok(Tree::Cross(trees(alloc, shapes.as_slice())?)),
        Shape::Dot(shapes) => Ok(Tree::Dot(trees(alloc, shapes.as_slice())?)),
        Shape::Prefix(first, second) => {
            let first = Box::new(alloc, tree(alloc, first)?)?;
            Ok(Tree::Prefix(first, Box::new(alloc, tree(alloc, second)?)?))
        }
    }
}

fn trees(alloc: Global, shapes: &[Shape]) -> Result<Trees> {
    let mut made = Vec::new();
    for shape in shapes {
        made.push(tree(alloc, shape)?);
    }
    Ok(Trees(made))
}

pub fn mismatch(alloc: Global, depths: &[usize]) -> Result<Depths> {
    let mut made = Vec::new();
    for i in 0..depths.len() {
        made.push((name(alloc, i)?, depths[i] as u32));
    }
    Ok(Sequence::of(made))
}

/// What a leaf walks of a made-up value; its tellings are put behind `says`.
pub fn walk(
    alloc: Global,
    random: &mut Random,
    leaf: u32,
    levels: usize,
    place: &[u32],
    says: &mut Vec<Say>,
) -> Result<Walk> {
    let number = says.len();
    let here = place.to_vec();
    if levels == 0 {
        let faulty = random.once_in(3);
        let what = if faulty {
            What::FaultyValue
        } else {
            What::Value
        };
        says.push(Say {
            leaf,
            place: here,
            what,
        });
        return Ok(Walk::Bound(number, faulty));
    }
    if random.once_in(6) {
        says.push(Say {
            leaf,
            place: here,
            what: What::Fault,
        });
        return Ok(Walk::Fault(number));
    }
    let count = random.below(4);
    says.push(Say {
        leaf,
        place: here,
        what: What::Close(count as u32),
    });
    let mut items = Vec::new();
    for i in 0..count {
        let mut inside = place.to_vec();
        inside.push(i as u32);
        items.push(walk(
            alloc,
            random,
            leaf,
            levels - 1,
            inside.as_slice(),
            says,
        )?);
    }
    Ok(Walk::List(number, items))
}

// ---- the iteration of a strategy over whole values, by plain recursion on finished lists

/// An iteration; each node has the numbers of the tellings that it waits for.
pub enum Iteration {
    End(Vec<usize>, bool),
    Passed(Vec<usize>, u32),
    List(Vec<usize>, Vec<Iteration>),
}

/// What stands at a place.
#[derive(Clone, Copy, Debug, PartialEq, Eq)]
pub enum Stands {
    Job(bool),
    Closed(u32),
    Passed(u32),
}

pub struct Node {
    pub place: Vec<u32>,
    pub stands: Stands,
    pub sources: Vec<usize>,
    pub out: bool,
}

fn both(alloc: Global, first: &[usize], second: &[usize]) -> Result<Vec<usize>> {
    let mut all = first.to_vec();
    all.extend_from_slice(second);
    Ok(all)
}

fn walked(alloc: Global, leaf: u32, walk: &Walk) -> Result<Iteration> {
    match walk {
        Walk::Bound(number, faulty) => Ok(Iteration::End([*number].to_vec(), *faulty)),
        Walk::Fault(number) => Ok(Iteration::Passed([*number].to_vec(), leaf)),
        Walk::List(number, walks) => {
            let mut items = Vec::new();
            for walk in walks.as_slice() {
                items.push(walked(alloc, leaf, walk)?);
            }
            Ok(Iteration::List([*number].to_vec(), items))
        }
    }
}

/// The iteration with these sources added to every node, and this to what its ends bind.
fn added(alloc: Global, sources: &[usize], faulty: bool, inner: &Iteration) -> Result<Iteration> {
    match inner {
        Iteration::End(others, other) => Ok(Iteration::End(
            both(alloc, sources, others.as_slice())?,
            faulty || *other,
        )),
        Iteration::Passed(others, leaf) => Ok(Iteration::Passed(
            both(alloc, sources, others.as_slice())?,
            *leaf,
        )),
        Iteration::List(others, inside) => {
            let mut items = Vec::new();
            for item in inside.as_slice() {
                items.push(added(alloc, sources, faulty, item)?);
            }
            Ok(Iteration::List(
                both(alloc, sources, others.as_slice())?,
                items,
            ))
        }
    }
}

/// Each end of the first is replaced by the second; faults stay.
fn crossed(alloc: Global, first: &Iteration, second: &Iteration) -> Result<Iteration> {
    match first {
        Iteration::End(sources, faulty) => added(alloc, sources.as_slice(), *faulty, second),
        Iteration::Passed(sources, leaf) => {
            Ok(Iteration::Passed(sources.as_slice().to_vec(), *leaf))
        }
        Iteration::List(sources, inside) => {
            let mut items = Vec::new();
            for item in inside.as_slice() {
                items.push(crossed(alloc, item, second)?);
            }
            Ok(Iteration::List(sources.as_slice().to_vec(), items))
        }
    }
}

fn sources_of(iteration: &Iteration) -> &[usize] {
    match iteration {
        Iteration::End(sources, _) => sources.as_slice(),
        Iteration::Passed(sources, _) => sources.as_slice(),
        Iteration::List(sources, _) => sources.as_slice(),
    }
}

/// What the children of a dot have at one place.
fn zipped(alloc: Global, children: &[&Iteration]) -> Result<Iteration> {
    let mut sources = Vec::new();
    let mut fault = None;
    let mut least = None;
    let mut holds = false;
    for child in children {
        sources.extend_from_slice(sources_of(*child));
        match *child {
            Iteration::End(_, faulty) => {
                holds = holds || *faulty;
            }
            Iteration::Passed(_, leaf) => {
                if fault.is_none() {
                    fault = Some(*leaf);
                }
            }
            Iteration::List(_, items) => {
                let count = items.len();
                least = Some(match least {
                    None => count,
                    Some(least) => {
                        if least < count {
                            least
                        } else {
                            count
                        }
                    }
                });
            }
        }
    }
    if let Some(leaf) = fault {
        return Ok(Iteration::Passed(sources, leaf));
    }
    let Some(least) = least else {
        return Ok(Iteration::End(sources, holds));
    };
    let mut items = Vec::new();
    for i in 0..least {
        let mut inside = Vec::new();
        for child in children {
            match *child {
                Iteration::List(_, parts) => inside.push(&parts.as_slice()[i]),
                _ => bail!("an end beside a list"),
            }
        }
        items.push(zipped(alloc, inside.as_slice())?);
    }
    Ok(Iteration::List(sources, items))
}

/// What the children of a prefix node have: below an end of the first all that the second has there.
fn prefixed(alloc: Global, first: &Iteration, second: &Iteration) -> Result<Iteration> {
    let sources = both(alloc, sources_of(first), sources_of(second))?;
    match (first, second) {
        (Iteration::End(own, faulty), _) => added(alloc, own.as_slice(), *faulty, second),
        (Iteration::Passed(_, leaf), _) => Ok(Iteration::Passed(sources, *leaf)),
        (Iteration::List(..), Iteration::Passed(_, leaf)) => Ok(Iteration::Passed(sources, *leaf)),
        (Iteration::List(_, items), Iteration::List(_, parts)) => {
            let mut inside = Vec::new();
            for (item, part) in items.iter().zip(parts.iter()) {
                inside.push(prefixed(alloc, item, part)?);
            }
            Ok(Iteration::List(sources, inside))
        }
        (Iteration::List(..), Iteration::End(..)) => bail!("an end below a list"),
    }
}

pub fn iteration(alloc: Global, shape: &Shape, walks: &[Walk]) -> Result<Iteration> {
    match shape {
        Shape::Leaf(leaf) => walked(alloc, *leaf as u32, &walks[*leaf]),
        Shape::Cross(shapes) => crossed_all(alloc, shapes.as_slice(), walks),
        Shape::Dot(shapes) => {
            let mut children = Vec::new();
            for shape in shapes.as_slice() {
                children.push(iteration(alloc, shape, walks)?);
            }
            let mut lent = Vec::new();
            for child in children.as_slice() {
                lent.push(child);
            }
            zipped(alloc, lent.as_slice())
        }
        Shape::Prefix(first, second) => {
            let first = iteration(alloc, first, walks)?;
            let second = iteration(alloc, second, walks)?;
            prefixed(alloc, &first, &second)
        }
    }
}

fn crossed_all(alloc: Global, shapes: &[Shape], walks: &[Walk]) -> Result<Iteration> {
    match shapes.split_first() {
        None => Ok(Iteration::End(Vec::new(), false)),
        Some((first, others)) => {
            let first = iteration(alloc, first, walks)?;
            let others = crossed_all(alloc, others, walks)?;
            crossed(alloc, &first, &others)
        }
    }
}

/// All nodes, put behind `nodes`.
pub fn nodes_of(
    alloc: Global,
    iteration: &Iteration,
    place: &[u32],
    nodes: &mut Vec<Node>,
) -> Result<()> {
    let here = place.to_vec();
    let stands = match iteration {
        Iteration::End(_, faulty) => Stands::Job(*faulty),
        Iteration::Passed(_, leaf) => Stands::Passed(*leaf),
        Iteration::List(_, items) => Stands::Closed(items.len() as u32),
    };
    nodes.push(Node {
        place: here,
        stands,
        sources: sources_of(iteration).to_vec(),
        out: false,
    });
    if let Iteration::List(_, items) = iteration {
        for i in 0..items.len() {
            let mut inside = place.to_vec();
            inside.push(i as u32);
            nodes_of(alloc, &items.as_slice()[i], inside.as_slice(), nodes)?;
        }
    }
    Ok(())
}

// ---- one strategy, told in a made-up order, and looked at after each telling

pub struct Tally {
    pub tellings: u64,
    pub items: u64,
    pub faulty: u64,
    pub reserves: u64,
    pub refusals: u64,
}

fn stands(kind: Kind) -> Stands {
    match kind {
        Kind::Job { faulty } => Stands::Job(faulty),
        Kind::Closed(length) => Stands::Closed(length),
        Kind::Passed(leaf) => Stands::Passed(leaf),
    }
}

fn all_told(node: &Node, told: &[bool]) -> bool {
    for number in node.sources.as_slice() {
        if !told[*number] {
            return false;
        }
    }
    true
}

/// How many nodes have all that they wait for.
fn ready(nodes: &[Node], told: &[bool]) -> usize {
    let mut count = 0;
    for node in nodes {
        if all_told(node, told) {
            count += 1;
        }
    }
    count
}

fn come_out(nodes: &mut [Node], told: &[bool], place: &[u32], here: Stands) -> Result<()> {
    for node in nodes.iter_mut() {
        if !node.out && node.place.as_slice() == place && node.stands == here {
            ensure!(all_told(node, told), "too early");
            node.out = true;
            return Ok(());
        }
    }
    bail!("nothing such is due at {place:?}: {here:?}")
}

/// Takes out what comes out, and holds it against what is due.
fn look(
    alloc: Global,
    random: &mut Random,
    matcher: &mut Matcher,
    nodes: &mut Vec<Node>,
    told: &[bool],
    tally: &mut Tally,
) -> Result<()> {
    ensure!(
        matcher.shown() == ready(nodes.as_slice(), told),
        "another number shown"
    );
    while let Some((place, kind)) = matcher.first() {
        let place = place.to_vec();
        let (same, also) = matcher.item(matcher.given());
        ensure!(same == place.as_slice() && also == kind, "another item");
        come_out(nodes.as_mut_slice(), told, place.as_slice(), stands(kind))?;
        tally.items += 1;
        if kind == (Kind::Job { faulty: true }) {
            tally.faulty += 1;
        }
        if random.once_in(2) {
            matcher.pass();
        } else {
            let before = taken();
            let next = matcher.next();
            ensure!(taken() == before, "next takes memory");
            match (next, kind) {
                (Some(Matched::Job(at)), Kind::Job { .. }) => {
                    ensure!(at.as_slice() == place.as_slice(), "another job")
                }
                (Some(Matched::Closed(at, n)), Kind::Closed(m)) => {
                    ensure!(at.as_slice() == place.as_slice() && n == m, "another list")
                }
                (Some(Matched::Passed(at, l)), Kind::Passed(m)) => {
                    ensure!(at.as_slice() == place.as_slice() && l == m, "another fault")
                }
                _ => bail!("next gives another thing"),
            }
        }
    }
    ensure!(matcher.next().is_none(), "next gives more");
    ensure!(matcher.shown() == matcher.given(), "shown but not given");
    for node in nodes.as_slice() {
        ensure!(
            node.out == all_told(node, told),
            "something is due at {:?}",
            node.place
        );
    }
    Ok(())
}

fn tell(
    alloc: Global,
    matcher: &mut Matcher,
    say: &Say,
) -> std::result::Result<(), NoMemory> {
    let place = Place::of(alloc, say.place.as_slice())?;
    match say.what {
        What::Value => matcher.on_arrival(say.leaf, &place, false)?,
        What::FaultyValue => matcher.on_faulty(say.leaf, &place)?,
        What::Fault => matcher.on_arrival(say.leaf, &place, true)?,
        What::Close(length) => matcher.on_close(say.leaf, &place, length)?,
    }
    Ok(())
}

fn listed(alloc: Global, say: &Say) -> Result<Told> {
    let place = Place::of(alloc, say.place.as_slice())?;
    let leaf = say.leaf;
    Ok(match say.what {
        What::Value => Told::Arrival {
            leaf,
            place,
            fault: false,
        },
        What::FaultyValue => Told::Faulty { leaf, place },
        What::Fault => Told::Arrival {
            leaf,
            place,
            fault: true,
        },
        What::Close(length) => Told::Close {
            leaf,
            place,
            length,
        },
    })
}

/// Takes room for the next tellings of the order, and holds the answer against what is due for them. Whether it was refused.
fn reserve(
    alloc: Global,
    matcher: &mut Matcher,
    says: &[Say],
    next: &[usize],
    nodes: &[Node],
    told: &[bool],
    tally: &mut Tally,
) -> Result<bool> {
    let mut list = Vec::new();
    let mut later = told.to_vec();
    for number in next {
        list.push(listed(alloc, &says[*number])?);
        later.as_mut_slice()[*number] = true;
    }
    let due = ready(nodes, later.as_slice()) - ready(nodes, told);
    let list = Sequence::of(list);
    let Some(answer) = unless_refused(matcher, tally, |matcher| matcher.reserve(&list))? else {
        return Ok(true);
    };
    ensure!(
        answer == due as u64,
        "reserve answers {answer}, and {due} are due"
    );
    Ok(false)
}

fn ordered(alloc: Global, random: &mut Random, count: usize) -> Result<Vec<usize>> {
    let mut order = Vec::new();
    for i in 0..count {
        order.push(i);
    }
    for i in 0..count {
        let j = i + random.below(count - i);
        order.as_mut_slice().swap(i, j);
    }
    Ok(order)
}

/// With the allocation of that number refused, if there is one.
pub fn run(
    alloc: Global,
    random: &mut Random,
    tally: &mut Tally,
    refused: Option<u64>,
) -> Result<()> {
    let (from, end) = refused.map_or((0, 0), |number| (number, number + 1));
    let mut depths = Vec::new();
    let leaves = random.below(5);
    let depth = random.below(4);
    let depth = if leaves == 0 { 0 } else { depth };
    let form = shape(alloc, random, leaves, depth, &mut depths)?;
    let mut says = Vec::new();
    let mut walks = Vec::new();
    for leaf in 0..depths.len() {
        walks.push(walk(
            alloc,
            random,
            leaf as u32,
            depths.as_slice()[leaf],
            &[],
            &mut says,
        )?);
    }
    let whole = iteration(alloc, &form, walks.as_slice())?;
    let mut nodes = Vec::new();
    nodes_of(alloc, &whole, &[], &mut nodes)?;
    let mut told = Vec::new();
    for _ in 0..says.len() {
        told.push(false);
    }
    refuse(0, 0);
    let (form, depths) = (tree(alloc, &form)?, mismatch(alloc, depths.as_slice())?);
    refuse(from, end);
    let mut matcher = match Matcher::start(alloc, &form, &depths) {
        Ok(matcher) => matcher,
        Err(_) => {
            tally.refusals += 1;
            Matcher::start(alloc, &form, &depths)?
        }
    };
    look(
        alloc,
        random,
        &mut matcher,
        &mut nodes,
        told.as_slice(),
        tally,
    )?;
    let mut order = ordered(alloc, random, says.len())?;
    let mut at = 0;
    let mut held = 0;
    while at < order.len() {
        if random.once_in(if held == 0 { 3 } else { 6 }) {
            // Where something is held and the call is refused, that stays held.
            let more = 1 + random.below((order.len() - at).min(6));
            let refused = reserve(
                alloc,
                &mut matcher,
                says.as_slice(),
                &order.as_slice()[at..at + more],
                nodes.as_slice(),
                told.as_slice(),
                tally,
            )?;
            if !refused {
                held = more;
            }
            look(
                alloc,
                random,
                &mut matcher,
                &mut nodes,
                told.as_slice(),
                tally,
            )?;
            tally.reserves += 1;
        }
        if held > 0 && random.once_in(8) {
            // Another telling than the next held one: what is held is let go.
            let other = at + random.below(order.len() - at);
            order.as_mut_slice().swap(at, other);
            held = 0;
        }
        let number = order.as_slice()[at];
        let say = &says.as_slice()[number];
        if held > 0 {
            held -= 1;
            let before = taken();
            tell(alloc, &mut matcher, say)?;
            ensure!(taken() == before, "a held telling takes memory");
        } else {
            once_more(&mut matcher, tally, |matcher| tell(alloc, matcher, say))?;
        }
        told.as_mut_slice()[number] = true;
        tally.tellings += 1;
        look(
            alloc,
            random,
            &mut matcher,
            &mut nodes,
            told.as_slice(),
            tally,
        )?;
        at += 1;
    }
    Ok(())
}
