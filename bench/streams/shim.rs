//! What the partial trees use of the libraries below them, in plain Rust, and a way to refuse memory.
use std::cell::Cell;
use std::mem;
use std::ops::{Index, IndexMut};

#[derive(Clone, Copy, Debug)]
pub struct Global;

#[derive(Debug)]
pub struct AllocError;

pub struct AllocFailed<T> {
    pub value: T,
}

thread_local! {
    // Whether memory grows by no more than is asked, so that it is asked often.
    pub static TIGHT: Cell<bool> = const { Cell::new(false) };
    // How often memory was asked, and which of these is refused; 0 for none.
    pub static ASKED: Cell<u64> = const { Cell::new(0) };
    pub static REFUSED: Cell<u64> = const { Cell::new(0) };
}

#[cold]
fn grow<T>(list: &mut Vec<T>, additional: usize) -> Result<(), AllocError> {
    let asked = ASKED.get() + 1;
    ASKED.set(asked);
    if asked == REFUSED.get() {
        return Err(AllocError);
    }
    if TIGHT.get() {
        list.try_reserve_exact(additional).map_err(|_| AllocError)
    } else {
        list.try_reserve(additional).map_err(|_| AllocError)
    }
}

/// The kit's slab, in its own words.
pub struct Slab<T> {
    entries: Vec<Entry<T>>,
    len: usize,
    next: usize,
}

enum Entry<T> {
    Vacant(usize),
    Occupied(T),
}

impl<T> Slab<T> {
    pub fn new(_: Global) -> Self {
        Slab {
            entries: Vec::new(),
            len: 0,
            next: 0,
        }
    }

    pub fn capacity(&self) -> usize {
        self.entries.capacity()
    }

    pub fn len(&self) -> usize {
        self.len
    }

    #[inline]
    pub fn reserve(&mut self, additional: usize) -> Result<(), AllocError> {
        if self.entries.capacity() - self.len >= additional {
            return Ok(());
        }
        let more = additional - (self.entries.len() - self.len);
        grow(&mut self.entries, more)
    }

    #[inline]
    pub fn insert(&mut self, value: T) -> Result<usize, AllocFailed<T>> {
        if self.reserve(1).is_err() {
            return Err(AllocFailed { value });
        }
        Ok(self.insert_reserved(value))
    }

    #[inline]
    pub fn insert_reserved(&mut self, value: T) -> usize {
        let key = self.next;
        self.len += 1;
        if key == self.entries.len() {
            self.entries.push(Entry::Occupied(value));
            self.next = key + 1;
            return key;
        }
        match mem::replace(&mut self.entries[key], Entry::Occupied(value)) {
            Entry::Vacant(next) => self.next = next,
            Entry::Occupied(_) => unreachable!(),
        }
        key
    }

    pub fn remove(&mut self, key: usize) -> T {
        let vacant = Entry::Vacant(self.next);
        match mem::replace(&mut self.entries[key], vacant) {
            Entry::Occupied(value) => {
                self.len -= 1;
                self.next = key;
                value
            }
            Entry::Vacant(_) => unreachable!(),
        }
    }
}

impl<T> Index<usize> for Slab<T> {
    type Output = T;

    #[inline]
    fn index(&self, key: usize) -> &T {
        match self.entries.get(key) {
            Some(Entry::Occupied(value)) => value,
            _ => unreachable!(),
        }
    }
}

impl<T> IndexMut<usize> for Slab<T> {
    #[inline]
    fn index_mut(&mut self, key: usize) -> &mut T {
        match &mut self.entries[key] {
            Entry::Occupied(value) => value,
            Entry::Vacant(_) => unreachable!(),
        }
    }
}

#[derive(Clone, Copy, Debug)]
pub struct Place {
    len: usize,
    indices: [u32; 32],
}

impl Place {
    pub fn of(place: &[u32]) -> Place {
        let mut indices = [0; 32];
        indices[..place.len()].copy_from_slice(place);
        Place {
            len: place.len(),
            indices,
        }
    }

    #[inline]
    pub fn as_slice(&self) -> &[u32] {
        &self.indices[..self.len]
    }
}
