//! Faults of Paper 10 in what the rules are, which record is told of, and what stands in the record of a run.
use super::judged::{without_console, without_life, Judged};
use crate::model::{Tag, ZERO};
use crate::recorded::Operation;
use crate::shift::{earliest, found, Fault, Placed, Record, Rule};
use std::cmp::Reverse;

fn only_ts((ts, ..): Tag) -> Tag {
    (ts, 0, 0)
}

fn are_neighbours((i, _): Placed, (j, _): Placed) -> bool {
    i.abs_diff(j) == 1
}

/// The earliest is that which begins first.
pub fn first_in_time(j: &mut Judged) {
    let records = j.records;
    j.first_by(|i, rule| (records[i].begin, i, rule));
}

/// The earliest is that which ends first; those without an end come last.
pub fn first_to_end(j: &mut Judged) {
    let records = j.records;
    j.first_by(|i, rule| (records[i].end.wrapping_sub(1), i, rule));
}

/// The last record at fault is told.
pub fn last_in_list(j: &mut Judged) {
    j.first_by(|i, rule| (Reverse(i), rule));
}

/// The first rule that any record breaks is told, with the earliest that breaks it.
pub fn rule_before_place(j: &mut Judged) {
    j.first_by(|i, rule| (rule, i));
}

/// The third rule is put before the first.
pub fn three_before_one(j: &mut Judged) {
    j.first_by(|i, rule| (i, rule == Rule::SharedTag, rule));
}

/// The third rule is put before the second.
pub fn three_before_two(j: &mut Judged) {
    j.first_by(|i, rule| (i, rule == Rule::NoSuchWrite, rule));
}

/// Records are counted from 1.
pub fn place_from_1(j: &mut Judged) {
    let found = std::mem::take(&mut j.found);
    j.found = found.into_iter().map(|((i, rule), other)| ((i + 1, rule), other)).collect();
}

/// Of two that break a rule the one that stands first is at fault.
pub fn earlier_of_two(j: &mut Judged) {
    let mut turned = j.records.to_vec();
    turned.reverse();
    let back = |i: usize| turned.len() - 1 - i;
    let of_pairs = found(&turned).into_iter().filter(|((_, rule), _)| *rule != Rule::NoSuchWrite);
    j.found.retain(|(_, rule), _| *rule == Rule::NoSuchWrite);
    j.found
        .extend(of_pairs.map(|((i, rule), other)| ((back(i), rule), other.map(back))));
}

/// A record is against the last one before it with which it breaks the rule.
pub fn last_before(j: &mut Judged) {
    if let Some(Fault { record, rule, .. }) = earliest(&j.found).filter(|fault| fault.rule != Rule::NoSuchWrite) {
        let mut turned = j.records[..=record].to_vec();
        turned[..record].reverse();
        let other = found(&turned)[&(record, rule)];
        j.found.insert((record, rule), other.map(|i| record - 1 - i));
    }
}

/// A read of another value is against the last write of its tag.
pub fn last_write_of_tag(j: &mut Judged) {
    let records = j.records;
    j.write_told(|i| records.iter().rposition(|x| x.is_write() && x.tag == records[i].tag));
}

/// A read of what none wrote is against no record, whoever wrote its tag.
pub fn other_value_untold(j: &mut Judged) {
    j.write_told(|_| None);
}

/// A write shares its tag with the reads of it.
pub fn share_with_read(j: &mut Judged) {
    j.share_if(|(_, x), (_, y)| (x.is_write() || y.is_write()) && x.tag == y.tag);
}

/// Only writes of one console share a tag.
pub fn share_of_one_console(j: &mut Judged) {
    j.writes_share_if(|x, y| x.tag == y.tag && x.console == y.console);
}

/// Two lives share a tag.
pub fn share_without_life(j: &mut Judged) {
    j.writes_share_if(|x, y| without_life(x.tag) == without_life(y.tag));
}

/// So do all with one ts.
pub fn share_by_ts(j: &mut Judged) {
    j.writes_share_if(|x, y| x.tag.0 == y.tag.0);
}

/// Each record is compared with the one before it alone.
pub fn share_with_neighbour(j: &mut Judged) {
    j.share_if(|x, y| are_neighbours(x, y) && x.1.is_write() && y.1.is_write() && x.1.tag == y.1.tag);
}

/// Two writes of one value may share a tag.
pub fn share_of_other_value(j: &mut Judged) {
    j.writes_share_if(|x, y| x.tag == y.tag && x.value != y.value);
}

/// A read's tag alone is that of a write.
pub fn any_value_read(j: &mut Judged) {
    j.source_if(|(_, x), (_, y)| x.is_write() && x.tag == y.tag);
}

/// A read of tag zero may have any value.
pub fn any_zero_read(j: &mut Judged) {
    let records = j.records;
    j.found.retain(|(i, rule), _| *rule != Rule::NoSuchWrite || records[*i].tag != ZERO);
}

/// The write stands before the read.
pub fn source_before(j: &mut Judged) {
    j.write_is_source_if(|(i, x), (k, y)| i < k && x.tag == y.tag);
}

/// The write has begun before the read has ended.
pub fn source_begun(j: &mut Judged) {
    j.write_is_source_if(|(_, x), (_, y)| x.tag == y.tag && !y.ends_before(x));
}

/// The write is finished.
pub fn source_ended(j: &mut Judged) {
    j.write_is_source_if(|(_, x), (_, y)| x.tag == y.tag && x.end > 0);
}

/// Another read's tag and value will do.
pub fn source_is_read(j: &mut Judged) {
    j.source_if(|(i, x), (k, y)| i != k && (x.tag, x.value) == (y.tag, y.value));
}

/// The write may be another life's.
pub fn source_without_life(j: &mut Judged) {
    j.write_is_source_if(|(_, x), (_, y)| without_life(x.tag) == without_life(y.tag));
}

/// The write may be another console's.
pub fn source_without_console(j: &mut Judged) {
    j.write_is_source_if(|(_, x), (_, y)| without_console(x.tag) == without_console(y.tag));
}

/// An end at another's begin is before it.
pub fn ends_at_begin(j: &mut Judged) {
    j.comes_before_if(|x, y| x.end != 0 && x.end <= y.begin);
}

/// An end of 0 is before every begin.
pub fn end_0_before_all(j: &mut Judged) {
    j.comes_before_if(|x, y| x.end < y.begin);
}

/// The later operation is that which begins later.
pub fn begins_before(j: &mut Judged) {
    j.comes_before_if(|x, y| x.begin < y.begin);
}

/// A write without an end has ended just after its begin.
pub fn lost_write_ends(j: &mut Judged) {
    j.comes_before_if(|x, y| x.ends_before(y) || x.is_write() && x.end == 0 && x.begin.saturating_add(1) < y.begin);
}

/// A later read may have a lower tag.
pub fn reads_fall(j: &mut Judged) {
    j.only_if(|_, (_, y)| y.is_write());
}

/// A later write may have the same tag.
pub fn writes_stay(j: &mut Judged) {
    j.follows_if(|y, x| y.tag >= x.tag);
}

/// A later read must have a higher tag.
pub fn reads_rise(j: &mut Judged) {
    j.follows_if(|y, x| y.tag > x.tag);
}

/// Lives are not compared.
pub fn order_without_life(j: &mut Judged) {
    j.order_by(without_life);
}

/// The tag's consoles are not compared.
pub fn order_without_console(j: &mut Judged) {
    j.order_by(without_console);
}

/// The ts alone are compared.
pub fn order_by_ts(j: &mut Judged) {
    j.order_by(only_ts);
}

/// Lives are compared before consoles.
pub fn life_before_tag_console(j: &mut Judged) {
    j.order_by(|(ts, console, life)| (ts, life, console));
}

/// Only writes are compared with those before them.
pub fn order_of_writes(j: &mut Judged) {
    j.only_if(|(_, x), (_, y)| x.is_write() && y.is_write());
}

/// Each record is compared with the one before it alone.
pub fn order_of_neighbours(j: &mut Judged) {
    j.only_if(are_neighbours);
}

/// The one that ends first stands first.
pub fn order_as_listed(j: &mut Judged) {
    j.only_if(|(i, _), (k, _)| i < k);
}

/// The one that ends first stands last.
pub fn order_against_list(j: &mut Judged) {
    j.only_if(|(i, _), (k, _)| i > k);
}

/// A read without an end is not looked at.
pub fn open_reads_left_out(j: &mut Judged) {
    let records = j.records;
    j.found.retain(|(i, _), _| records[*i].is_write() || records[*i].end > 0);
}

/// A write that is lost ends when its console goes down.
pub fn lost_write_ends_at_down(operation: &Operation) -> Option<Record> {
    let mut record = operation.listed()?;
    if let Some(step) = operation.lost_at {
        record.end = step;
    }
    Some(record)
}

/// A write that is not finished is not listed.
pub fn open_write_unlisted(operation: &Operation) -> Option<Record> {
    operation.listed().filter(|record| record.end > 0)
}
