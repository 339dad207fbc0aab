//! std's `BTreeMap` as an ordered map of the plain programs.
use crate::ordered_map::OrderedMap;
use std::collections::BTreeMap;

pub struct Std(BTreeMap<u64, u64>);

impl OrderedMap for Std {
    fn with_room(_pairs: usize) -> Std {
        Std(BTreeMap::new())
    }

    fn put(&mut self, key: u64, value: u64) -> Option<u64> {
        self.0.insert(key, value)
    }

    fn get(&self, key: u64) -> Option<u64> {
        self.0.get(&key).copied()
    }

    fn remove(&mut self, key: u64) -> Option<u64> {
        self.0.remove(&key)
    }

    fn ceil(&self, key: u64) -> Option<(u64, u64)> {
        self.0.range(key..).next().map(|(key, value)| (*key, *value))
    }

    fn floor(&self, key: u64) -> Option<(u64, u64)> {
        self.0.range(..=key).next_back().map(|(key, value)| (*key, *value))
    }

    fn len(&self) -> usize {
        self.0.len()
    }

    fn pairs(&self) -> impl Iterator<Item = (u64, u64)> {
        self.0.iter().map(|(key, value)| (*key, *value))
    }
}
