//! Hashed collections whose order is the same in every run. No answer depends
//! on that order; a run that goes wrong must still be repeatable.

use std::collections::hash_map::DefaultHasher;
use std::hash::{BuildHasherDefault, Hash};
use std::ops::{Deref, DerefMut};

type Fixed = BuildHasherDefault<DefaultHasher>;

macro_rules! fixed_hash {
    ($name:ident<$($part:ident),*>, $first:ident, $item:ty) => {
        #[derive(Clone)]
        pub struct $name<$($part),*>(std::collections::$name<$($part,)* Fixed>);

        impl<$($part),*> $name<$($part),*>
        where
            $first: Eq + Hash,
        {
            pub fn new() -> Self {
                Self(Default::default())
            }
        }

        impl<$($part),*> Deref for $name<$($part),*> {
            type Target = std::collections::$name<$($part,)* Fixed>;

            fn deref(&self) -> &Self::Target {
                &self.0
            }
        }

        impl<$($part),*> DerefMut for $name<$($part),*> {
            fn deref_mut(&mut self) -> &mut Self::Target {
                &mut self.0
            }
        }

        impl<$($part),*> IntoIterator for $name<$($part),*> {
            type Item = $item;
            type IntoIter = <std::collections::$name<$($part,)* Fixed> as IntoIterator>::IntoIter;

            fn into_iter(self) -> Self::IntoIter {
                self.0.into_iter()
            }
        }
    };
}

fixed_hash!(HashMap<K, V>, K, (K, V));
fixed_hash!(HashSet<T>, T, T);
