//! What the records use of the libraries below them, in plain Rust. Whatever may allocate asks `room` first, which refuses once
//! where the trial told it to.
use std::cell::Cell;
use std::cmp::Ordering;
use std::ops::{Deref, DerefMut};

#[derive(Clone, Copy, Debug)]
pub struct Global;
#[derive(Debug)]
pub struct NoMemory;

thread_local! {
    static LEFT: Cell<u64> = const { Cell::new(u64::MAX) };
}

/// Lets so many requests through, and refuses the next.
pub fn refuse_after(requests: u64) {
    LEFT.with(|left| left.set(requests));
}

/// Refuses none from now on.
pub fn refuse_none() {
    refuse_after(u64::MAX)
}

#[inline]
fn room() -> Result<(), NoMemory> {
    LEFT.with(|left| match left.get() {
        u64::MAX => Ok(()),
        0 => {
            left.set(u64::MAX);
            Err(NoMemory)
        }
        count => {
            left.set(count - 1);
            Ok(())
        }
    })
}

#[derive(Clone, Debug, PartialEq, Eq, PartialOrd, Ord)]
pub struct Vec<T>(std::vec::Vec<T>);
impl<T> Vec<T> {
    pub fn new(_: Global) -> Self {
        Vec(std::vec::Vec::new())
    }
    pub fn with_capacity(_: Global, count: usize) -> Result<Self, NoMemory> {
        if count > 0 {
            room()?;
        }
        Ok(Vec(std::vec::Vec::with_capacity(count)))
    }
    #[inline]
    pub fn push(&mut self, x: T) -> Result<(), NoMemory> {
        if self.0.len() == self.0.capacity() {
            room()?;
        }
        self.0.push(x);
        Ok(())
    }
    pub fn reserve(&mut self, count: usize) -> Result<(), NoMemory> {
        if self.0.capacity() - self.0.len() < count {
            room()?;
        }
        self.0.reserve(count);
        Ok(())
    }
    pub fn pop(&mut self) -> Option<T> {
        self.0.pop()
    }
    pub fn truncate(&mut self, n: usize) {
        self.0.truncate(n)
    }
    pub fn as_slice(&self) -> &[T] {
        &self.0
    }
}
impl<T> Deref for Vec<T> {
    type Target = [T];
    fn deref(&self) -> &[T] {
        &self.0
    }
}
impl<T> DerefMut for Vec<T> {
    fn deref_mut(&mut self) -> &mut [T] {
        &mut self.0
    }
}
impl<T> IntoIterator for Vec<T> {
    type Item = T;
    type IntoIter = std::vec::IntoIter<T>;
    fn into_iter(self) -> Self::IntoIter {
        self.0.into_iter()
    }
}
pub fn filled<T: Clone>(_: Global, x: T, count: usize) -> Result<Vec<T>, NoMemory> {
    if count > 0 {
        room()?;
    }
    Ok(Vec(vec![x; count]))
}
pub fn one<T>(_: Global, x: T) -> Result<Vec<T>, NoMemory> {
    room()?;
    Ok(Vec(vec![x]))
}

/// A map in the order of its keys.
pub struct BTreeMap<K, V>(std::collections::BTreeMap<K, V>);
impl<K: Ord, V> BTreeMap<K, V> {
    pub fn new(_: Global) -> Self {
        BTreeMap(std::collections::BTreeMap::new())
    }
    pub fn insert(&mut self, key: K, value: V) -> Result<Option<V>, NoMemory> {
        room()?;
        Ok(self.0.insert(key, value))
    }
    pub fn get(&self, key: &K) -> Option<&V> {
        self.0.get(key)
    }
    pub fn contains_key(&self, key: &K) -> bool {
        self.0.contains_key(key)
    }
    pub fn iter(&self) -> std::collections::btree_map::Iter<'_, K, V> {
        self.0.iter()
    }
    pub fn keys(&self) -> std::collections::btree_map::Keys<'_, K, V> {
        self.0.keys()
    }
}

/// A set in order.
pub struct BTreeSet<K>(std::collections::BTreeSet<K>);
impl<K: Ord> BTreeSet<K> {
    pub fn new(_: Global) -> Self {
        BTreeSet(std::collections::BTreeSet::new())
    }
    pub fn insert(&mut self, key: K) -> Result<bool, NoMemory> {
        room()?;
        Ok(self.0.insert(key))
    }
    pub fn contains(&self, key: &K) -> bool {
        self.0.contains(key)
    }
    pub fn pop_first(&mut self) -> Option<K> {
        self.0.pop_first()
    }
    pub fn len(&self) -> usize {
        self.0.len()
    }
}

pub trait Copied: Sized {
    fn copy(&self, a: Global) -> Result<Self, NoMemory>;
}

#[derive(Clone, Debug, PartialEq, Eq, PartialOrd, Ord)]
pub struct Text(String);
pub type Name = Text;
impl Text {
    pub fn from_str(_: Global, text: &str) -> Result<Text, NoMemory> {
        if !text.is_empty() {
            room()?;
        }
        Ok(Text(text.to_string()))
    }
    pub fn as_str(&self) -> &str {
        &self.0
    }
}
impl Copied for Text {
    fn copy(&self, a: Global) -> Result<Self, NoMemory> {
        Text::from_str(a, &self.0)
    }
}

/// A place, with room for 32 indices inside it.
#[derive(Clone, Debug)]
pub struct Place {
    len: usize,
    idx: [u32; 32],
}
impl Place {
    pub fn top(_: Global) -> Place {
        Place { len: 0, idx: [0; 32] }
    }
    pub fn of(a: Global, q: &[u32]) -> Result<Place, NoMemory> {
        let mut place = Place::top(a);
        place.idx[..q.len()].copy_from_slice(q);
        place.len = q.len();
        Ok(place)
    }
    pub fn as_slice(&self) -> &[u32] {
        &self.idx[..self.len]
    }
    pub fn prefix_of(&self, other: &Place) -> bool {
        other.as_slice().starts_with(self.as_slice())
    }
}
impl Copied for Place {
    fn copy(&self, a: Global) -> Result<Self, NoMemory> {
        Place::of(a, self.as_slice())
    }
}
impl PartialEq for Place {
    fn eq(&self, other: &Place) -> bool {
        self.as_slice() == other.as_slice()
    }
}
impl Eq for Place {}
impl PartialOrd for Place {
    fn partial_cmp(&self, other: &Place) -> Option<Ordering> {
        Some(self.cmp(other))
    }
}
impl Ord for Place {
    fn cmp(&self, other: &Place) -> Ordering {
        self.as_slice().cmp(other.as_slice())
    }
}

#[derive(Clone, Debug, PartialEq, Eq, PartialOrd, Ord)]
pub struct Sequence<T>(Vec<T>);
impl<T> Sequence<T> {
    pub fn of(items: Vec<T>) -> Self {
        Sequence(items)
    }
    pub fn empty(a: Global) -> Self {
        Sequence(Vec::new(a))
    }
    pub fn into_vec(self) -> Vec<T> {
        self.0
    }
    pub fn as_slice(&self) -> &[T] {
        self.0.as_slice()
    }
}
impl<T: Copied> Copied for Sequence<T> {
    fn copy(&self, a: Global) -> Result<Self, NoMemory> {
        let mut copies = Vec::with_capacity(a, self.as_slice().len())?;
        for item in self.as_slice() {
            copies.push(item.copy(a)?)?;
        }
        Ok(Sequence(copies))
    }
}
impl<A: Copied, B: Copied> Copied for (A, B) {
    fn copy(&self, a: Global) -> Result<Self, NoMemory> {
        Ok((self.0.copy(a)?, self.1.copy(a)?))
    }
}
pub type JobName = Sequence<(Name, Place)>;
pub type JobNames = Sequence<JobName>;
