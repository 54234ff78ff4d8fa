//! Faults of Paper 10 in which records may be put to the rules, and how many.
use super::judged::{without_console, without_life, Judged};
use crate::model::{MAX_LIFE, MAX_TS, ZERO};
use crate::shift::{earliest, Record, MAX_RECORDS};

fn in_16_bits(number: u64) -> u64 {
    number % (1 << 16)
}

/// 256 are too many.
pub fn refuses_256(j: &mut Judged) {
    if j.records.len() == MAX_RECORDS {
        j.refused = Err(17);
    }
}

/// 257 are not.
pub fn allows_257(j: &mut Judged) {
    if j.records.len() == MAX_RECORDS + 1 {
        j.refused = Ok(());
        j.sound_if(Record::is_sound);
    }
}

/// 18 is asked before 17.
pub fn unsound_before_many(j: &mut Judged) {
    if !j.records.iter().all(Record::is_sound) {
        j.refused = Err(18);
    }
}

/// 18 is asked of each record as the list is walked, so that a fault before it is told.
pub fn unsound_in_turn(j: &mut Judged) {
    if let (Err(18), Some(fault)) = (j.refused, earliest(&j.found)) {
        if j.records[..=fault.record].iter().all(Record::is_sound) {
            j.refused = Ok(());
        }
    }
}

/// An operation may end at its begin.
pub fn end_at_begin(j: &mut Judged) {
    j.sound_as(|x| Record {
        end: if x.end == x.begin { 0 } else { x.end },
        ..*x
    });
}

/// And before.
pub fn end_before_begin(j: &mut Judged) {
    j.sound_as(|x| Record { end: 0, ..*x });
}

/// An end of 0 is not after the begin.
pub fn end_0_unsound(j: &mut Judged) {
    j.sound_if(|x| x.is_sound() && x.end > x.begin);
}

/// Places are from 1.
pub fn begin_0_unsound(j: &mut Judged) {
    j.sound_if(|x| x.is_sound() && x.begin > 0);
}

/// The record's own console must be one of 8.
pub fn own_console_judged(j: &mut Judged) {
    j.sound_if(|x| x.is_sound() && x.console < 8);
}

/// A tag may have console 8.
pub fn tag_console_8(j: &mut Judged) {
    j.sound_with_tag(|(ts, console, life)| (ts, if console == 8 { 7 } else { console }, life));
}

/// Of a tag's console the lowest 16 bits are read.
pub fn tag_console_cut(j: &mut Judged) {
    j.sound_with_tag(|(ts, console, life)| (ts, in_16_bits(console), life));
}

/// A tag may have life 1,001.
pub fn tag_life_1001(j: &mut Judged) {
    j.sound_with_tag(|(ts, console, life)| (ts, console, if life == MAX_LIFE + 1 { MAX_LIFE } else { life }));
}

/// Of a tag's life the lowest 16 bits are read.
pub fn tag_life_cut(j: &mut Judged) {
    j.sound_with_tag(|(ts, console, life)| (ts, console, in_16_bits(life)));
}

/// A ts may be one above the last.
pub fn ts_above_last(j: &mut Judged) {
    j.sound_with_tag(|(ts, console, life)| (if ts == MAX_TS + 1 { MAX_TS } else { ts }, console, life));
}

/// The last ts is too high.
pub fn last_ts_unsound(j: &mut Judged) {
    j.sound_if(|x| x.is_sound() && x.tag.0 < MAX_TS);
}

/// A tag with ts 0 may have a console.
pub fn zero_ts_of_console(j: &mut Judged) {
    j.sound_with_tag(|tag| if tag.0 == 0 && tag.1 < 8 { without_console(tag) } else { tag });
}

/// It may have a life.
pub fn zero_ts_of_life(j: &mut Judged) {
    j.sound_with_tag(|tag| if tag.0 == 0 && tag.2 <= MAX_LIFE { without_life(tag) } else { tag });
}

/// A write may have tag zero.
pub fn write_of_ts_0(j: &mut Judged) {
    j.sound_with_tag(|tag| if tag == ZERO { (1, 0, 0) } else { tag });
}

/// No read may.
pub fn read_of_ts_0_unsound(j: &mut Judged) {
    j.sound_if(|x| x.is_sound() && x.tag.0 > 0);
}

/// A tag with ts 0 must have value 0.
pub fn judged_with_value(j: &mut Judged) {
    j.sound_if(|x| x.is_sound() && (x.tag.0 > 0 || x.value == 0));
}
