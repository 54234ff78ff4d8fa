//! Faults in demand 3's rules.
use crate::rules::Rules;

pub fn bound_one_less(rules: &mut Rules) {
    rules.deliveries -= 1;
}

pub fn majority_one_less(rules: &mut Rules) {
    rules.up -= 1;
}

/// A later read, too, must have a higher tag.
pub fn reads_higher(rules: &mut Rules) {
    rules.rises = |_| true;
}

/// The tags of two writes must differ in ts or console.
pub fn apart_without_life(rules: &mut Rules) {
    rules.apart = |(ts, console, _)| (ts, console, 0);
}

/// The bound of a read that finishes early.
pub fn early_bound_one_less(rules: &mut Rules) {
    rules.early_deliveries -= 1;
}
