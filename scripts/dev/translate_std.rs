//! What crates use of Rattle's library, over plain Rust, for `translate.py`: calls take no allocator, and none fails.

pub mod alloc {
    #[derive(Clone, Copy, PartialEq, Eq, Debug)]
    pub struct Global;
    #[derive(Clone, Copy, PartialEq, Eq, Debug)]
    pub struct AllocError;
}
use alloc::*;
pub mod prelude {
    pub use super::{CollectIn, String, Vec};
    pub use crate::plain_vec;
}
#[macro_export]
macro_rules! plain_vec { (in $a:expr; $x:expr; $n:expr) => { { let _ = $a; crate::plain::Vec::filled($x, $n) } };
 (in $a:expr; $($x:expr),* $(,)?) => { { let _ = $a; crate::plain::Vec::of(std::vec![$($x),*]) } }; }
#[derive(PartialEq, Eq, PartialOrd, Ord, Hash)]
pub struct Vec<T>(pub std::vec::Vec<T>);
impl<T> std::ops::Deref for Vec<T> {
    type Target = std::vec::Vec<T>;
    #[inline(always)]
    fn deref(&self) -> &std::vec::Vec<T> {
        &self.0
    }
}
impl<T> std::ops::DerefMut for Vec<T> {
    #[inline(always)]
    fn deref_mut(&mut self) -> &mut std::vec::Vec<T> {
        &mut self.0
    }
}
/// `collect(alloc)` of Rattle's iterators.
pub trait CollectIn: Iterator + Sized {
    fn collect_in(self, _: Global) -> Result<Vec<Self::Item>, AllocError> {
        Ok(Vec(self.collect()))
    }
}
impl<I: Iterator> CollectIn for I {}
impl<T> Vec<T> {
    pub fn of(v: std::vec::Vec<T>) -> Result<Vec<T>, AllocError> {
        Ok(Vec(v))
    }
    pub fn new(_: Global) -> Vec<T> {
        Vec(std::vec::Vec::new())
    }
    pub fn with_capacity(_: Global, n: usize) -> Result<Vec<T>, AllocError> {
        Ok(Vec(std::vec::Vec::with_capacity(n)))
    }
    pub fn from_slice(_: Global, s: &[T]) -> Result<Vec<T>, AllocError>
    where
        T: Clone,
    {
        Ok(Vec(s.to_vec()))
    }
    #[inline(always)]
    pub fn push(&mut self, x: T) -> Result<(), AllocError> {
        self.0.push(x);
        Ok(())
    }
    #[inline(always)]
    pub fn push_reserved(&mut self, x: T) {
        unsafe {
            let l = self.0.len();
            debug_assert!(l < self.0.capacity());
            std::ptr::write(self.0.as_mut_ptr().add(l), x);
            self.0.set_len(l + 1);
        }
    }
    pub fn reserve(&mut self, n: usize) -> Result<(), AllocError> {
        self.0.reserve(n);
        Ok(())
    }
    pub fn extend_from_slice(&mut self, s: &[T]) -> Result<(), AllocError>
    where
        T: Clone,
    {
        self.0.extend_from_slice(s);
        Ok(())
    }
    pub fn append(&mut self, o: &mut Vec<T>) -> Result<(), AllocError> {
        self.0.append(&mut o.0);
        Ok(())
    }
    pub fn insert(&mut self, i: usize, x: T) -> Result<(), AllocError> {
        self.0.insert(i, x);
        Ok(())
    }
    pub fn resize(&mut self, n: usize, x: T) -> Result<(), AllocError>
    where
        T: Clone,
    {
        self.0.resize(n, x);
        Ok(())
    }
    pub fn filled(x: T, n: usize) -> Result<Vec<T>, AllocError>
    where
        T: Clone,
    {
        Ok(Vec(std::vec![x; n]))
    }
    pub fn shrink_to_fit(&mut self) {}
    pub fn sort_by_key<K: Ord, F: FnMut(&T) -> K>(&mut self, f: F) -> Result<(), AllocError> {
        self.0.sort_by_key(f);
        Ok(())
    }
}
impl<T, I: std::slice::SliceIndex<[T]>> std::ops::Index<I> for Vec<T> {
    type Output = I::Output;
    #[inline(always)]
    fn index(&self, i: I) -> &I::Output {
        &self.0[i]
    }
}
impl<T, I: std::slice::SliceIndex<[T]>> std::ops::IndexMut<I> for Vec<T> {
    #[inline(always)]
    fn index_mut(&mut self, i: I) -> &mut I::Output {
        &mut self.0[i]
    }
}
impl<T> IntoIterator for Vec<T> {
    type Item = T;
    type IntoIter = std::vec::IntoIter<T>;
    fn into_iter(self) -> Self::IntoIter {
        self.0.into_iter()
    }
}
impl<'a, T> IntoIterator for &'a Vec<T> {
    type Item = &'a T;
    type IntoIter = std::slice::Iter<'a, T>;
    fn into_iter(self) -> Self::IntoIter {
        self.0.iter()
    }
}
impl<'a, T> IntoIterator for &'a mut Vec<T> {
    type Item = &'a mut T;
    type IntoIter = std::slice::IterMut<'a, T>;
    fn into_iter(self) -> Self::IntoIter {
        self.0.iter_mut()
    }
}
pub use std::string::String;
pub mod rc {
    use super::alloc::*;
    pub struct Rc<T>(std::rc::Rc<T>);
    impl<T> Rc<T> {
        pub fn new(_: Global, x: T) -> Result<Rc<T>, AllocError> {
            Ok(Rc(std::rc::Rc::new(x)))
        }
        pub fn clone(&self) -> Result<Rc<T>, AllocError> {
            Ok(Rc(self.0.clone()))
        }
    }
    impl<T> std::ops::Deref for Rc<T> {
        type Target = T;
        #[inline(always)]
        fn deref(&self) -> &T {
            &self.0
        }
    }
}
pub mod memchr {
    pub fn memchr(b: u8, s: &[u8]) -> Option<usize> {
        extern "C" {
            fn memchr(p: *const u8, c: i32, n: usize) -> *const u8;
        }
        if s.is_empty() {
            return None;
        }
        unsafe {
            let p = memchr(s.as_ptr(), b as i32, s.len());
            if p.is_null() {
                None
            } else {
                Some(p as usize - s.as_ptr() as usize)
            }
        }
    }
}
pub mod indexmap {
    /// The values of a map, as a slice.
    pub struct Values<V>(std::vec::Vec<V>);
    impl<V> Values<V> {
        pub fn as_slice(&self) -> &[V] {
            &self.0
        }
    }
    use super::alloc::*;
    use std::collections::hash_map::Entry;
    use std::hash::{BuildHasherDefault, Hash, Hasher};
    type Places<K> = std::collections::HashMap<K, usize, BuildHasherDefault<FoldHasher>>;
    /// The hasher of Rattle's tables.
    pub struct FoldHasher(u64);
    const MULTIPLIER: u64 = 0x9e37_79b9_7f4a_7c15;
    fn folded(a: u64, b: u64) -> u64 {
        let product = a as u128 * b as u128;
        product as u64 ^ (product >> 64) as u64
    }
    fn read(bytes: &[u8], at: usize) -> u64 {
        u64::from_le_bytes(bytes[at..at + 8].try_into().unwrap())
    }
    fn read_short(bytes: &[u8]) -> u64 {
        let len = bytes.len();
        let half = |at: usize| u32::from_le_bytes(bytes[at..at + 4].try_into().unwrap()) as u64;
        if len >= 4 {
            half(0) | half(len - 4) << 32
        } else if len > 0 {
            bytes[0] as u64 | (bytes[len / 2] as u64) << 8 | (bytes[len - 1] as u64) << 16
        } else {
            0
        }
    }
    impl Default for FoldHasher {
        fn default() -> Self {
            FoldHasher(0x243f_6a88_85a3_08d3)
        }
    }
    impl Hasher for FoldHasher {
        fn finish(&self) -> u64 {
            self.0
        }
        fn write(&mut self, bytes: &[u8]) {
            let len = bytes.len();
            if len <= 8 {
                self.0 = folded(self.0 ^ read_short(bytes), MULTIPLIER ^ (2 * len as u64));
                return;
            }
            let mut state = self.0.wrapping_add(len as u64);
            let mut at = 0;
            while len - at > 16 {
                state = folded(read(bytes, at) ^ state, read(bytes, at + 8) ^ MULTIPLIER);
                at += 16;
            }
            self.0 = folded(read(bytes, len.saturating_sub(16)) ^ state, read(bytes, len - 8) ^ MULTIPLIER);
        }
    }
    pub struct IndexMap<K, V>(Places<K>, std::vec::Vec<(K, V)>);
    impl<K: Hash + Eq + Clone, V> IndexMap<K, V> {
        pub fn new(_: Global) -> Self {
            IndexMap(Default::default(), std::vec::Vec::new())
        }
        pub fn get<Q: Hash + Eq + ?Sized>(&self, k: &Q) -> Option<&V>
        where
            K: std::borrow::Borrow<Q>,
        {
            self.0.get(k).map(|i| &self.1[*i].1)
        }
        pub fn get_mut(&mut self, k: &K) -> Option<&mut V> {
            let i = *self.0.get(k)?;
            Some(&mut self.1[i].1)
        }
        pub fn contains_key(&self, k: &K) -> bool {
            self.0.contains_key(k)
        }
        pub fn insert(&mut self, k: K, v: V) -> Result<Option<V>, AllocError> {
            match self.0.entry(k.clone()) {
                Entry::Occupied(i) => Ok(Some(std::mem::replace(&mut self.1[*i.get()].1, v))),
                Entry::Vacant(new) => {
                    new.insert(self.1.len());
                    self.1.push((k, v));
                    Ok(None)
                }
            }
        }
        pub fn len(&self) -> usize {
            self.1.len()
        }
        pub fn get_index(&self, i: usize) -> Option<(&K, &V)> {
            self.1.get(i).map(|(k, v)| (k, v))
        }
        pub fn values(&self) -> Values<V>
        where
            V: Clone,
        {
            Values(self.1.iter().map(|x| x.1.clone()).collect())
        }
        pub fn iter(&self) -> impl Iterator<Item = (&K, &V)> {
            self.1.iter().map(|x| (&x.0, &x.1))
        }
        pub fn keys(&self) -> impl Iterator<Item = &K> {
            self.1.iter().map(|x| &x.0)
        }
    }
    pub struct IndexSet<K>(Places<K>);
    impl<K: Hash + Eq> IndexSet<K> {
        pub fn new(_: Global) -> Self {
            IndexSet(Default::default())
        }
        pub fn with_capacity(_: Global, room: usize) -> Result<Self, AllocError> {
            Ok(IndexSet(Places::with_capacity_and_hasher(room, Default::default())))
        }
        pub fn insert_full(&mut self, k: K) -> Result<(usize, bool), AllocError> {
            let n = self.0.len();
            match self.0.entry(k) {
                Entry::Occupied(i) => Ok((*i.get(), false)),
                Entry::Vacant(new) => {
                    new.insert(n);
                    Ok((n, true))
                }
            }
        }
    }
}
pub mod itoa {
    pub struct Buffer;
    impl Buffer {
        pub fn new() -> Buffer {
            Buffer
        }
        pub fn format(&mut self, n: u64) -> &str {
            Box::leak(n.to_string().into_boxed_str())
        }
    }
}
pub fn boxed<T>(x: T) -> Result<Box<T>, AllocError> {
    Ok(Box::new(x))
}
