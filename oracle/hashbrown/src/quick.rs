//! std's maps with a hash of one multiplication a word, the two halves of the product folded: about what hashbrown's
//! own default does. They are types of their own, since std's `new` is for std's hash alone.
use std::collections::{HashMap as Map, HashSet as Set};
use std::hash::{BuildHasherDefault, Hash, Hasher};
use std::ops::{Deref, DerefMut};

/// The hash of what was written so far.
#[derive(Default)]
pub struct Fold(u64);

impl Hasher for Fold {
    fn finish(&self) -> u64 {
        self.0
    }
    fn write(&mut self, bytes: &[u8]) {
        bytes.iter().for_each(|byte| self.write_u64(u64::from(*byte)));
    }
    fn write_u32(&mut self, word: u32) {
        self.write_u64(u64::from(word));
    }
    fn write_u64(&mut self, word: u64) {
        let product = u128::from(self.0 ^ word ^ 0x243f_6a88_85a3_08d3) * 0x9e37_79b9_7f4a_7c15;
        self.0 = (product >> 64) as u64 ^ product as u64;
    }
}

/// A map or a set of std's with that hash.
macro_rules! with_fold {
    ($name:ident<$($of:ident),*>, $inner:ty) => {
        #[derive(Debug)]
        pub struct $name<$($of),*>($inner);

        impl<$($of),*> $name<$($of),*> {
            pub fn new() -> Self {
                Self::default()
            }
        }
        impl<$($of),*> Default for $name<$($of),*> {
            fn default() -> Self {
                Self(Default::default())
            }
        }
        impl<$($of: Clone),*> Clone for $name<$($of),*> {
            fn clone(&self) -> Self {
                Self(self.0.clone())
            }
            fn clone_from(&mut self, source: &Self) {
                self.0.clone_from(&source.0);
            }
        }
        impl<$($of),*> Deref for $name<$($of),*> {
            type Target = $inner;
            fn deref(&self) -> &$inner {
                &self.0
            }
        }
        impl<$($of),*> DerefMut for $name<$($of),*> {
            fn deref_mut(&mut self) -> &mut $inner {
                &mut self.0
            }
        }
        impl<$($of),*> IntoIterator for $name<$($of),*> {
            type Item = <$inner as IntoIterator>::Item;
            type IntoIter = <$inner as IntoIterator>::IntoIter;
            fn into_iter(self) -> Self::IntoIter {
                self.0.into_iter()
            }
        }
        impl<'a, $($of),*> IntoIterator for &'a $name<$($of),*> {
            type Item = <&'a $inner as IntoIterator>::Item;
            type IntoIter = <&'a $inner as IntoIterator>::IntoIter;
            fn into_iter(self) -> Self::IntoIter {
                self.0.iter()
            }
        }
    };
}

with_fold!(HashMap<K, V>, Map<K, V, BuildHasherDefault<Fold>>);
with_fold!(HashSet<T>, Set<T, BuildHasherDefault<Fold>>);

impl<K: Eq + Hash, V> FromIterator<(K, V)> for HashMap<K, V> {
    fn from_iter<I: IntoIterator<Item = (K, V)>>(pairs: I) -> Self {
        Self(pairs.into_iter().collect())
    }
}
