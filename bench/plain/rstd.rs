//! What stands for Rattle's std: containers that take an allocator and answer `Result`.
use std::ops::{Deref, DerefMut};

macro_rules! vec {
    (in $alloc:expr $(;)?) => { crate::rstd::vec::Vec::with_capacity($alloc, 0) };
    (in $alloc:expr; $elem:expr; $n:expr) => { crate::rstd::vec::Vec::from_elem($alloc, $elem, $n) };
    (in $alloc:expr; $($x:expr),+ $(,)?) => { crate::rstd::vec::Vec::from_array($alloc, [$($x),+]) };
}

pub mod prelude {
    pub use super::boxed::Box;
    pub use super::string::String;
    pub use super::vec::Vec;
    pub use super::drops::Drop;
    pub use super::vec::ToVecBy;
}

pub mod drops {
    pub trait Drop {}
    impl<T: ?Sized> Drop for T {}
}

pub mod alloc {
    #[derive(Clone, Copy, Debug, PartialEq, Eq)]
    pub struct Global;
    #[derive(Clone, Copy, Debug, PartialEq, Eq)]
    pub struct AllocError;
    pub struct AllocFailed<T>(pub T);
    impl<T> From<AllocFailed<T>> for AllocError {
        fn from(_: AllocFailed<T>) -> AllocError {
            AllocError
        }
    }
}

pub mod boxed {
    use super::alloc::{AllocError, Global};
    #[derive(Debug)]
    pub struct Box<T>(std::boxed::Box<T>);
    impl<T> Box<T> {
        pub fn new(_: Global, item: T) -> Result<Box<T>, AllocError> { Ok(Box(std::boxed::Box::new(item))) }
    }
    impl<T> std::ops::Deref for Box<T> {
        type Target = T;
        fn deref(&self) -> &T { &self.0 }
    }
}

pub mod error {
    pub trait Error {}
}

pub mod marker {
    pub struct Brand;
    pub trait Model {}
}

pub mod sync {
    pub mod ledger {
        use std::marker::PhantomData;
        pub trait Ledger {}
        impl Ledger for crate::rstd::marker::Brand {}
        pub struct Blank;
        pub struct Book<L>(PhantomData<L>);
        pub struct Share<L>(PhantomData<L>);
        impl Blank {
            pub fn new(_parts: u32) -> Blank {
                Blank
            }
            pub fn open<L: Ledger>(self) -> (Book<L>, Share<L>) {
                (Book(PhantomData), Share(PhantomData))
            }
        }
        impl<L> Book<L> {
            #[inline(always)]
            pub fn add(&mut self, _share: &mut Share<L>, _n: u64) {}
        }
    }
}

pub mod vec {
    use super::alloc::{AllocError, AllocFailed, Global};
    use std::cmp::Ordering;
    use std::ops::{Deref, DerefMut};

    type Plain<T> = std::vec::Vec<T>;

    #[derive(Debug, PartialEq, Eq)]
    pub struct Vec<T>(pub Plain<T>);

    impl<T> Vec<T> {
        pub fn new(_: Global) -> Vec<T> { Vec(Plain::new()) }
        pub fn with_capacity(_: Global, n: usize) -> Result<Vec<T>, AllocError> {
            let mut items = Plain::new();
            match items.try_reserve_exact(n) {
                Ok(()) => Ok(Vec(items)),
                Err(_) => Err(AllocError),
            }
        }
        pub fn from_slice(_: Global, items: &[T]) -> Result<Vec<T>, AllocError> where T: Copy {
            Ok(Vec(items.to_vec()))
        }
        pub fn from_elem(_: Global, elem: T, n: usize) -> Result<Vec<T>, AllocError> where T: Clone {
            Ok(Vec(std::vec![elem; n]))
        }
        pub fn from_array<const N: usize>(_: Global, items: [T; N]) -> Result<Vec<T>, AllocError> {
            Ok(Vec(Plain::from(items)))
        }
        pub fn clone(&self) -> Result<Vec<T>, AllocError> where T: Clone { Ok(Vec(self.0.clone())) }
        pub fn allocator(&self) -> &Global { &Global }
        pub fn as_slice(&self) -> &[T] { &self.0 }
        pub fn as_mut_slice(&mut self) -> &mut [T] { &mut self.0 }
        #[inline]
        pub fn push(&mut self, item: T) -> Result<(), AllocFailed<T>> {
            if self.0.len() == self.0.capacity() && self.0.try_reserve(1).is_err() {
                return Err(AllocFailed(item));
            }
            self.0.push(item);
            Ok(())
        }
        #[inline]
        pub fn push_reserved(&mut self, item: T) { self.0.push(item) }
        pub fn reserve(&mut self, n: usize) -> Result<(), AllocError> {
            self.0.try_reserve(n).map_err(|_| AllocError)
        }
        pub fn reserve_exact(&mut self, n: usize) -> Result<(), AllocError> {
            self.0.try_reserve_exact(n).map_err(|_| AllocError)
        }
        pub fn pop(&mut self) -> Option<T> { self.0.pop() }
        pub fn take_last(&mut self) -> T { self.0.pop().unwrap() }
        pub fn truncate(&mut self, n: usize) { self.0.truncate(n) }
        pub fn clear(&mut self) { self.0.clear() }
        pub fn capacity(&self) -> usize { self.0.capacity() }
        pub fn remove(&mut self, i: usize) -> T { self.0.remove(i) }
        pub fn swap_remove(&mut self, i: usize) -> T { self.0.swap_remove(i) }
        pub fn insert(&mut self, i: usize, item: T) -> Result<(), AllocFailed<T>> {
            self.0.insert(i, item);
            Ok(())
        }
        pub fn extend_from_slice(&mut self, other: &[T]) -> Result<(), AllocError> where T: Copy {
            self.0.extend_from_slice(other);
            Ok(())
        }
        pub fn append(&mut self, other: &mut Vec<T>) -> Result<(), AllocError> {
            self.0.append(&mut other.0);
            Ok(())
        }
        pub fn resize(&mut self, n: usize, value: T) -> Result<(), AllocError> where T: Clone {
            self.0.resize(n, value);
            Ok(())
        }
        pub fn retain<F: FnMut(&T) -> bool>(&mut self, f: F) { self.0.retain(f) }
        pub fn shrink_to_fit(&mut self) { self.0.shrink_to_fit() }
        pub fn dedup(&mut self) where T: PartialEq { self.0.dedup() }
        pub fn sort(&mut self) -> Result<(), AllocError> where T: Ord { self.0.sort(); Ok(()) }
        pub fn sort_by<F: FnMut(&T, &T) -> Ordering>(&mut self, f: F) -> Result<(), AllocError> {
            self.0.sort_by(f);
            Ok(())
        }
        pub fn sort_by_key<K: Ord, F: FnMut(&T) -> K>(&mut self, f: F) -> Result<(), AllocError> {
            self.0.sort_by_key(f);
            Ok(())
        }
    }
    pub trait ToVecBy<T> {
        fn to_vec_by(&self, alloc: Global) -> Result<Vec<T>, AllocError>;
    }
    impl<T: Clone> ToVecBy<T> for [T] {
        fn to_vec_by(&self, _: Global) -> Result<Vec<T>, AllocError> { Ok(Vec(self.to_vec())) }
    }
    impl<T> Deref for Vec<T> {
        type Target = [T];
        #[inline(always)]
        fn deref(&self) -> &[T] { &self.0 }
    }
    impl<T> DerefMut for Vec<T> {
        #[inline(always)]
        fn deref_mut(&mut self) -> &mut [T] { &mut self.0 }
    }
    impl<T> IntoIterator for Vec<T> {
        type Item = T;
        type IntoIter = std::vec::IntoIter<T>;
        fn into_iter(self) -> Self::IntoIter { self.0.into_iter() }
    }
    impl<'a, T> IntoIterator for &'a Vec<T> {
        type Item = &'a T;
        type IntoIter = std::slice::Iter<'a, T>;
        fn into_iter(self) -> Self::IntoIter { self.0.iter() }
    }
    impl<'a, T> IntoIterator for &'a mut Vec<T> {
        type Item = &'a mut T;
        type IntoIter = std::slice::IterMut<'a, T>;
        fn into_iter(self) -> Self::IntoIter { self.0.iter_mut() }
    }
}

pub mod string {
    use super::alloc::{AllocError, Global};
    #[derive(Debug, PartialEq, Eq)]
    pub struct String(pub std::string::String);
    impl String {
        pub fn from_str(_: Global, text: &str) -> Result<String, AllocError> {
            Ok(String(std::string::String::from(text)))
        }
        pub fn new(_: Global) -> String { String(std::string::String::new()) }
        pub fn allocator(&self) -> &Global { &Global }
        pub fn as_str(&self) -> &str { &self.0 }
        pub fn push_str(&mut self, piece: &str) -> Result<(), AllocError> {
            self.0.push_str(piece);
            Ok(())
        }
    }
}

pub mod collections {
    use super::alloc::{AllocError, AllocFailed, Global};
    use std::collections as plain;
    use std::ops::{Deref, DerefMut};

    pub struct VecDeque<T>(plain::VecDeque<T>);
    impl<T> VecDeque<T> {
        pub fn new(_: Global) -> Self { VecDeque(plain::VecDeque::new()) }
        pub fn push_back(&mut self, item: T) -> Result<(), AllocFailed<T>> {
            if self.0.try_reserve(1).is_err() {
                return Err(AllocFailed(item));
            }
            self.0.push_back(item);
            Ok(())
        }
        pub fn push_front(&mut self, item: T) -> Result<(), AllocFailed<T>> {
            if self.0.try_reserve(1).is_err() {
                return Err(AllocFailed(item));
            }
            self.0.push_front(item);
            Ok(())
        }
    }
    impl<T> Deref for VecDeque<T> {
        type Target = plain::VecDeque<T>;
        fn deref(&self) -> &Self::Target { &self.0 }
    }
    impl<T> DerefMut for VecDeque<T> {
        fn deref_mut(&mut self) -> &mut Self::Target { &mut self.0 }
    }

    pub struct BinaryHeap<T>(plain::BinaryHeap<T>);
    impl<T: Ord> BinaryHeap<T> {
        pub fn new(_: Global) -> Self { BinaryHeap(plain::BinaryHeap::new()) }
        pub fn push(&mut self, item: T) -> Result<(), AllocFailed<T>> {
            if self.0.try_reserve(1).is_err() {
                return Err(AllocFailed(item));
            }
            self.0.push(item);
            Ok(())
        }
    }
    impl<T> Deref for BinaryHeap<T> {
        type Target = plain::BinaryHeap<T>;
        fn deref(&self) -> &Self::Target { &self.0 }
    }
    impl<T> DerefMut for BinaryHeap<T> {
        fn deref_mut(&mut self) -> &mut Self::Target { &mut self.0 }
    }

    pub struct BTreeMap<K, V>(plain::BTreeMap<K, V>);
    impl<K: Ord, V> BTreeMap<K, V> {
        pub fn new(_: Global) -> Self { BTreeMap(plain::BTreeMap::new()) }
        pub fn insert(&mut self, k: K, v: V) -> Result<Option<V>, AllocError> { Ok(self.0.insert(k, v)) }
    }
    impl<K, V> Deref for BTreeMap<K, V> {
        type Target = plain::BTreeMap<K, V>;
        fn deref(&self) -> &Self::Target { &self.0 }
    }
    impl<K, V> DerefMut for BTreeMap<K, V> {
        fn deref_mut(&mut self) -> &mut Self::Target { &mut self.0 }
    }

    pub struct BTreeSet<K>(plain::BTreeSet<K>);
    impl<K: Ord> BTreeSet<K> {
        pub fn new(_: Global) -> Self { BTreeSet(plain::BTreeSet::new()) }
        pub fn insert(&mut self, k: K) -> Result<bool, AllocError> { Ok(self.0.insert(k)) }
    }
    impl<K> Deref for BTreeSet<K> {
        type Target = plain::BTreeSet<K>;
        fn deref(&self) -> &Self::Target { &self.0 }
    }
    impl<K> DerefMut for BTreeSet<K> {
        fn deref_mut(&mut self) -> &mut Self::Target { &mut self.0 }
    }
}
