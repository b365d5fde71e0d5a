//! An array with one element for each variant of an enum.

use std::fmt;
use std::ops::{Index, IndexMut};

pub trait Enum: Copy {
    fn number(self) -> usize;
    fn variant(number: usize) -> Self;
}

pub trait EnumArray<V>: Enum {
    type Array: Array<V>;
}

/// An array of any length.
pub trait Array<V> {
    fn made(f: impl FnMut(usize) -> V) -> Self;
    fn slice(&self) -> &[V];
    fn slice_mut(&mut self) -> &mut [V];
}

impl<V, const N: usize> Array<V> for [V; N] {
    #[inline]
    fn made(f: impl FnMut(usize) -> V) -> Self {
        std::array::from_fn(f)
    }

    #[inline]
    fn slice(&self) -> &[V] {
        self
    }

    #[inline]
    fn slice_mut(&mut self) -> &mut [V] {
        self
    }
}

macro_rules! implement_enum {
    ($name:ident: $($variant:ident)*) => {
        impl crate::stand_ins::enum_map::Enum for $name {
            #[inline]
            fn number(self) -> usize {
                self as usize
            }

            #[inline]
            fn variant(number: usize) -> Self {
                [$($name::$variant),*][number]
            }
        }

        impl<V> crate::stand_ins::enum_map::EnumArray<V> for $name {
            type Array = [V; [$($name::$variant),*].len()];
        }
    };
}

pub(crate) use implement_enum;

pub struct EnumMap<K: EnumArray<V>, V>(K::Array);

impl<K: EnumArray<V>, V> EnumMap<K, V> {
    #[inline]
    pub fn from_fn(mut f: impl FnMut(K) -> V) -> Self {
        Self(K::Array::made(|i| f(K::variant(i))))
    }

    pub fn values<'a>(&'a self) -> std::slice::Iter<'a, V>
    where
        K: 'a,
    {
        self.0.slice().iter()
    }

    pub fn values_mut<'a>(&'a mut self) -> std::slice::IterMut<'a, V>
    where
        K: 'a,
    {
        self.0.slice_mut().iter_mut()
    }
}

impl<K: EnumArray<V>, V> Index<K> for EnumMap<K, V> {
    type Output = V;

    #[inline]
    fn index(&self, key: K) -> &V {
        &self.0.slice()[key.number()]
    }
}

impl<K: EnumArray<V>, V> IndexMut<K> for EnumMap<K, V> {
    #[inline]
    fn index_mut(&mut self, key: K) -> &mut V {
        &mut self.0.slice_mut()[key.number()]
    }
}

impl<K: EnumArray<V>, V: Default> Default for EnumMap<K, V> {
    fn default() -> Self {
        Self::from_fn(|_| V::default())
    }
}

impl<K: EnumArray<V>, V: Clone> Clone for EnumMap<K, V> {
    #[inline]
    fn clone(&self) -> Self {
        Self(K::Array::made(|i| self.0.slice()[i].clone()))
    }
}

impl<K: EnumArray<V>, V: PartialEq> PartialEq for EnumMap<K, V> {
    fn eq(&self, other: &Self) -> bool {
        self.0.slice() == other.0.slice()
    }
}

impl<K: EnumArray<V>, V: fmt::Debug> fmt::Debug for EnumMap<K, V> {
    fn fmt(&self, f: &mut fmt::Formatter) -> fmt::Result {
        self.0.slice().fmt(f)
    }
}
