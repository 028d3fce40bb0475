//! What was seen among drawn requests, and how often.

use std::collections::BTreeMap;

#[derive(Default)]
pub struct Seen(BTreeMap<String, usize>);

impl Seen {
    /// Counts a feature, or only that it was looked for.
    pub fn note(&mut self, feature: impl Into<String>, is_there: bool) {
        *self.0.entry(feature.into()).or_default() += usize::from(is_there);
    }

    /// Prints all, and holds that each was seen at least so often.
    pub fn hold(&self, least: usize) {
        for (feature, count) in &self.0 {
            println!("{count:>8}  {feature}");
        }
        let rare: Vec<_> = self.0.iter().filter(|(_, count)| **count < least).collect();
        assert!(rare.is_empty(), "{rare:?}");
    }
}
