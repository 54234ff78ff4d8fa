//! A check of a shift's record that the model has made, and what a fault can do to it.
use crate::model::Tag;
use crate::shift::{earliest, found, pairs, reads, refused, Broken, Found, Placed, Record, Rule, Said};

/// A check that the model has made, which a fault changes: the refusal, and what breaks the rules, of which the first is told.
pub struct Judged<'a> {
    pub records: &'a [Record],
    pub refused: Result<(), u32>,
    pub found: Found,
}

impl Judged<'_> {
    /// The check with this fault.
    pub fn changed(records: &[Record], change: fn(&mut Judged)) -> Said {
        let mut judged = Judged {
            records,
            refused: refused(records),
            found: found(records),
        };
        change(&mut judged);
        judged.refused.map(|()| earliest(&judged.found))
    }

    /// Refused with 17 as before, but with 18 if this is not so of all.
    pub fn sound_if(&mut self, is_sound: impl Fn(&Record) -> bool) {
        if self.refused != Err(17) {
            self.refused = self.records.iter().all(is_sound).then_some(()).ok_or(18);
        }
    }

    /// A record is sound if another one is.
    pub fn sound_as(&mut self, other: impl Fn(&Record) -> Record) {
        self.sound_if(|x| other(x).is_sound());
    }

    /// So is one with another tag.
    pub fn sound_with_tag(&mut self, tag: impl Fn(Tag) -> Tag) {
        self.sound_as(|x| Record { tag: tag(x.tag), ..*x });
    }

    /// Only what is first by this is told.
    pub fn first_by<K: Ord>(&mut self, key: impl Fn(usize, Rule) -> K) {
        let first = self.found.keys().copied().min_by_key(|(i, rule)| key(*i, *rule));
        self.found.retain(|of, _| Some(*of) == first);
    }

    /// These and no others break the rule.
    pub fn broken(&mut self, rule: Rule, broken: Broken) {
        self.found.retain(|(_, other), _| *other != rule);
        self.found.extend(broken.into_iter().map(|(i, other)| ((i, rule), other)));
    }

    /// Which write is told of with a read in this place that none wrote.
    pub fn write_told(&mut self, told: impl Fn(usize) -> Option<usize>) {
        for ((i, _), other) in self.found.iter_mut().filter(|((_, rule), _)| *rule == Rule::NoSuchWrite) {
            *other = told(*i);
        }
    }

    /// Any two of which this is so break the first rule.
    pub fn share_if(&mut self, share: impl Fn(Placed, Placed) -> bool) {
        self.broken(Rule::SharedTag, pairs(self.records, share));
    }

    /// So do any two writes.
    pub fn writes_share_if(&mut self, share: impl Fn(&Record, &Record) -> bool) {
        self.share_if(|(_, x), (_, y)| x.is_write() && y.is_write() && share(x, y));
    }

    /// A read that is not the initial value's breaks the second rule if this is so of none.
    pub fn source_if(&mut self, is_source: impl Fn(Placed, Placed) -> bool) {
        let all: Vec<Placed> = self.records.iter().enumerate().collect();
        let is_broken = |y: Placed| !y.1.is_initial() && !all.iter().any(|x| is_source(*x, y));
        self.broken(Rule::NoSuchWrite, reads(self.records, is_broken));
    }

    /// The same of writes with the read's value.
    pub fn write_is_source_if(&mut self, is_source: impl Fn(Placed, Placed) -> bool) {
        self.source_if(|x, y| x.1.is_write() && x.1.value == y.1.value && is_source(x, y));
    }

    /// Any two of which this is so, the earlier and the later one, break the third rule.
    pub fn too_low_if(&mut self, too_low: impl Fn(Placed, Placed) -> bool) {
        self.broken(Rule::TagTooLow, pairs(self.records, too_low));
    }

    /// So do those of which the one ends before the other and this may not follow.
    pub fn follows_if(&mut self, may_follow: impl Fn(&Record, &Record) -> bool) {
        self.too_low_if(|(_, x), (_, y)| x.ends_before(y) && !may_follow(y, x));
    }

    /// So do those of which the one comes before the other by this and it may not follow.
    pub fn comes_before_if(&mut self, comes_before: impl Fn(&Record, &Record) -> bool) {
        self.too_low_if(|(_, x), (_, y)| comes_before(x, y) && !y.may_follow(x));
    }

    /// Those that break the third rule do so only if this is so of them, too.
    pub fn only_if(&mut self, is_so: impl Fn(Placed, Placed) -> bool) {
        self.too_low_if(|x, y| x.1.ends_before(y.1) && !y.1.may_follow(x.1) && is_so(x, y));
    }

    /// Tags stand to each other as these of theirs.
    pub fn order_by<K: Ord>(&mut self, of: impl Fn(Tag) -> K) {
        self.follows_if(|y, x| of(y.tag) > of(x.tag) || !y.is_write() && of(y.tag) == of(x.tag));
    }
}

pub fn without_life((ts, console, _): Tag) -> Tag {
    (ts, console, 0)
}

pub fn without_console((ts, _, life): Tag) -> Tag {
    (ts, 0, life)
}
