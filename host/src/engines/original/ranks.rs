//! Stand-ins for the original's lists of elements, which are vectors with names.

use std::ops::{Deref, DerefMut};

macro_rules! vec_like {
    ($name:ident, $item:ty, [$($derive:ident),*]) => {
        #[derive(Clone, Debug, Default, PartialEq, Eq, Hash, $($derive),*)]
        pub struct $name(Vec<$item>);

        impl $name {
            pub fn new() -> Self {
                Self::default()
            }
        }

        impl Deref for $name {
            type Target = Vec<$item>;

            fn deref(&self) -> &Self::Target {
                &self.0
            }
        }

        impl DerefMut for $name {
            fn deref_mut(&mut self) -> &mut Self::Target {
                &mut self.0
            }
        }

        impl From<Vec<$item>> for $name {
            fn from(items: Vec<$item>) -> Self {
                Self(items)
            }
        }

        impl FromIterator<$item> for $name {
            fn from_iter<I: IntoIterator<Item = $item>>(items: I) -> Self {
                Self(items.into_iter().collect())
            }
        }

        impl IntoIterator for $name {
            type Item = $item;
            type IntoIter = std::vec::IntoIter<$item>;

            fn into_iter(self) -> Self::IntoIter {
                self.0.into_iter()
            }
        }

        impl<'a> IntoIterator for &'a $name {
            type Item = &'a $item;
            type IntoIter = std::slice::Iter<'a, $item>;

            fn into_iter(self) -> Self::IntoIter {
                self.0.iter()
            }
        }
    };
}

vec_like!(Subelements, usize, [PartialOrd, Ord]);
vec_like!(Superelements, usize, []);
vec_like!(ElementList, Element, []);
vec_like!(Ranks, ElementList, []);

/// An element of a figure: the numbers of what it holds and of what holds it.
#[derive(Clone, Debug, Default, PartialEq, Eq, Hash)]
pub struct Element {
    /// The elements one rank below.
    pub subs: Subelements,
    /// Those one rank above.
    pub sups: Superelements,
}

impl Element {
    /// An element with these.
    pub fn new(subs: Subelements, sups: Superelements) -> Self {
        Self { subs, sups }
    }

    /// Both in ascending order.
    pub fn sort(&mut self) {
        self.subs.sort_unstable();
        self.sups.sort_unstable();
    }
}

/// The abstract polytopes that the faceting names: the dyad alone.
pub struct Abstract(Ranks);

impl Abstract {
    /// The edge between two points.
    pub fn dyad() -> Self {
        let element = |subs: &[usize], sups: &[usize]| {
            Element::new(subs.to_vec().into(), sups.to_vec().into())
        };
        let empty = vec![element(&[], &[0, 1])];
        let vertices = vec![element(&[0], &[0]), element(&[0], &[0])];
        let edge = vec![element(&[0, 1], &[])];
        let ranks = [empty, vertices, edge];
        Self(ranks.into_iter().map(ElementList::from).collect())
    }

    /// Its ranks.
    pub fn ranks(&self) -> &Ranks {
        &self.0
    }
}
