//! What takes long to work out, kept for inputs that come again.

use std::cell::RefCell;
use std::collections::HashMap;
use std::hash::Hash;

/// So many are kept at a time.
const MOST: usize = 1_000;

pub struct Kept<K, V>(RefCell<HashMap<K, V>>);

impl<K: Eq + Hash, V: Clone> Kept<K, V> {
    pub fn new() -> Self {
        Kept(RefCell::new(HashMap::new()))
    }

    /// What is kept for the key; else it is worked out and kept.
    pub fn get(&self, key: K, work_out: impl FnOnce() -> V) -> V {
        if let Some(value) = self.0.borrow().get(&key) {
            return value.clone();
        }
        let value = work_out();
        let mut kept = self.0.borrow_mut();
        if kept.len() == MOST {
            kept.clear();
        }
        kept.insert(key, value.clone());
        value
    }
}
