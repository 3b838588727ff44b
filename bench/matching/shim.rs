//! What the matcher uses of the libraries below it, in plain Rust.
use std::cell::Cell;
use std::ops::{Deref, DerefMut};

thread_local! {
    // How many allocations there were, and which of them are refused: those from a number on to before another.
    static TAKEN: Cell<u64> = const { Cell::new(0) };
    static REFUSED: Cell<(u64, u64)> = const { Cell::new((0, 0)) };
}
/// Counts the allocations anew; those from the first number on to before the second are refused.
pub fn refuse(from: u64, end: u64) {
    TAKEN.set(0);
    REFUSED.set((from, end));
}
/// How many allocations there were since.
pub fn taken() -> u64 {
    TAKEN.get()
}
fn take() -> Result<(), NoMemory> {
    let (number, (from, end)) = (TAKEN.get(), REFUSED.get());
    TAKEN.set(number + 1);
    if from <= number && number < end {
        return Err(NoMemory);
    }
    Ok(())
}
#[derive(Clone, Copy, Debug)]
pub struct Global;
#[derive(Debug)]
pub struct NoMemory;
#[derive(Debug)]
pub struct Vec<T>(std::vec::Vec<T>);
impl<T> Vec<T> {
    pub fn new(_: Global) -> Self {
        Vec(std::vec::Vec::new())
    }
    #[inline]
    pub fn push(&mut self, x: T) -> Result<(), NoMemory> {
        if self.0.len() == self.0.capacity() {
            take()?;
            self.0.try_reserve(1).map_err(|_| NoMemory)?;
        }
        self.0.push(x);
        Ok(())
    }
    #[inline]
    pub fn truncate(&mut self, n: usize) {
        self.0.truncate(n)
    }
    pub fn clear(&mut self) {
        self.0.clear()
    }
    #[inline]
    pub fn as_slice(&self) -> &[T] {
        &self.0
    }
}
impl<T: Copy> Vec<T> {
    pub fn copied(&self, a: Global) -> Result<Self, NoMemory> {
        let mut copy = Vec::new(a);
        copy.extend_from_slice(&self.0)?;
        Ok(copy)
    }
    #[inline]
    pub fn extend_from_slice(&mut self, o: &[T]) -> Result<(), NoMemory> {
        if self.0.capacity() - self.0.len() < o.len() {
            take()?;
            self.0.try_reserve(o.len()).map_err(|_| NoMemory)?;
        }
        self.0.extend_from_slice(o);
        Ok(())
    }
}
impl<T> Deref for Vec<T> {
    type Target = [T];
    fn deref(&self) -> &[T] {
        &self.0
    }
}
impl<T> DerefMut for Vec<T> {
    fn deref_mut(&mut self) -> &mut [T] {
        &mut self.0
    }
}
pub struct Box<T>(std::boxed::Box<T>);
impl<T> Box<T> {
    pub fn new(_: Global, x: T) -> Result<Self, NoMemory> {
        take()?;
        Ok(Box(std::boxed::Box::new(x)))
    }
}
impl<T> Deref for Box<T> {
    type Target = T;
    fn deref(&self) -> &T {
        &self.0
    }
}
impl<T> DerefMut for Box<T> {
    fn deref_mut(&mut self) -> &mut T {
        &mut self.0
    }
}
#[derive(Debug)]
pub struct Place {
    len: usize,
    idx: [u32; 32],
    // All of them, where there are more.
    all: std::vec::Vec<u32>,
}
impl Place {
    pub fn top(_: Global) -> Place {
        Place {
            len: 0,
            idx: [0; 32],
            all: std::vec::Vec::new(),
        }
    }
    pub fn of(a: Global, q: &[u32]) -> Result<Place, NoMemory> {
        let mut place = Place::top(a);
        if q.len() > 32 {
            take()?;
            place.all = q.to_vec();
        } else {
            place.idx[..q.len()].copy_from_slice(q);
        }
        place.len = q.len();
        Ok(place)
    }
    pub fn as_slice(&self) -> &[u32] {
        if self.len > 32 {
            &self.all
        } else {
            &self.idx[..self.len]
        }
    }
}
pub type Name = String;
pub enum Tree {
    Leaf(Name),
    Cross(Trees),
    Dot(Trees),
    Prefix(Box<Tree>, Box<Tree>),
}
pub struct Trees(pub std::vec::Vec<Tree>);
impl Trees {
    pub fn of(trees: Vec<Tree>) -> Trees {
        Trees(trees.0)
    }
    pub fn as_slice(&self) -> &[Tree] {
        &self.0
    }
}
impl Tree {
    pub fn copy(&self, a: Global) -> Result<Tree, NoMemory> {
        Ok(match self {
            Tree::Leaf(n) => {
                take()?;
                Tree::Leaf(n.clone())
            }
            Tree::Cross(t) => Tree::Cross(t.copy(a)?),
            Tree::Dot(t) => Tree::Dot(t.copy(a)?),
            Tree::Prefix(l, r) => {
                let l = Box::new(a, l.copy(a)?)?;
                Tree::Prefix(l, Box::new(a, r.copy(a)?)?)
            }
        })
    }
}
impl Trees {
    pub fn copy(&self, a: Global) -> Result<Trees, NoMemory> {
        take()?;
        let mut v = vec![];
        for t in &self.0 {
            v.push(t.copy(a)?);
        }
        Ok(Trees(v))
    }
}
#[derive(Debug, PartialEq)]
pub struct Sequence<T>(pub std::vec::Vec<T>);
impl<T> Sequence<T> {
    pub fn of(items: std::vec::Vec<T>) -> Self {
        Sequence(items)
    }
    pub fn empty(_: Global) -> Self {
        Sequence(std::vec::Vec::new())
    }
    pub fn as_slice(&self) -> &[T] {
        &self.0
    }
}
pub trait Copied: Sized {
    fn copy(&self, a: Global) -> Result<Self, NoMemory>;
}
pub type Depths = Sequence<(Name, u32)>;
impl Depths {
    pub fn named(&self, name: &Name) -> Option<&u32> {
        self.0.iter().find(|(other, _)| other == name).map(|(_, depth)| depth)
    }
}
impl Copied for Depths {
    fn copy(&self, _: Global) -> Result<Self, NoMemory> {
        take()?;
        Ok(Sequence(self.0.clone()))
    }
}
/// The depth of a strategy whose dots agree.
pub fn depth_of(tree: &Tree, mismatch: &Depths) -> Result<u32, ()> {
    match tree {
        Tree::Leaf(name) => {
            let named = mismatch.0.iter().find(|(other, _)| other == name);
            Ok(named.map_or(0, |(_, depth)| *depth))
        }
        Tree::Cross(trees) => trees.0.iter().map(|tree| depth_of(tree, mismatch)).sum(),
        Tree::Dot(trees) => trees.0.first().map_or(Ok(0), |tree| depth_of(tree, mismatch)),
        Tree::Prefix(_, right) => depth_of(right, mismatch),
    }
}
