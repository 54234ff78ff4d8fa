//! Deliberate faults, to show that the comparison can fail. Each is a misreading of a sentence of the papers, put round
//! the model: it changes what the model is given or what it answers.
mod audits;
mod early;
mod judged;
mod lines;
mod previews;
mod restarts;
mod rows;
mod rules;
mod shifts;
mod sound;
mod standing;
mod steps;
mod taken;
mod turns;
mod withdrawn;

use crate::audit::{self, Report};
use crate::audit_words::{self, Said};
use crate::model::{Answer, Model, Preview, Step};
use crate::picker::{Next, Picker};
use crate::recorded::Operation;
use crate::rules::Rules;
use crate::schedule::{self, Line};
use crate::shift::{self, Record};
use crate::words::{self, Words};
use audits::*;
use early::*;
use judged::Judged;
use lines::*;
use previews::*;
pub use restarts::*;
use rows::*;
use rules::*;
use shifts::*;
use sound::*;
use standing::*;
pub use steps::*;
pub use taken::Taken;
use turns::*;
use withdrawn::*;

pub struct Fault {
    pub name: &'static str,
    wraps: Wraps,
}

/// What a fault is put round.
#[derive(Clone, Copy)]
enum Wraps {
    /// The board that a step is put to: it is taken for another.
    Board(fn(&mut Model)),
    /// A step: it answers something else, or leaves another board.
    Step(fn(&mut Taken)),
    /// A preview: it gives something else.
    Preview(fn(&mut Foreseen)),
    /// A turn of the link: it sends something else, or leaves another state.
    Turn(fn(&mut Turned)),
    /// The check of a shift's records: it finds something else.
    Shift(fn(&mut Judged)),
    /// Which operations of a run are in its record, and how.
    Listed(fn(&Operation) -> Option<Record>),
    /// The words that a board is read from: they are taken for others.
    Words(fn(&mut Words)),
    /// A fresh in a list, on the first of these boards.
    List(fn(&Model, &mut Model)),
    /// The rules that a run is held to.
    Rules(fn(&mut Rules)),
    /// A line as it is found in an input.
    Found(fn(Line) -> Option<Line>),
    /// A line that is put to a board.
    Line(fn(&mut Model, Line) -> schedule::Answer),
    /// The fields of a line of the output.
    Output(fn([u64; 7]) -> Vec<u64>),
    /// The lines of a shift's record.
    Rows(audit::Lines),
    /// A line read as a row.
    Row(audit::AsRow),
    /// What a shift's record as rows comes to.
    Report(fn(&[u8], Report) -> Report),
    /// What is printed of it.
    Said(fn(&mut Said)),
}

macro_rules! faults {
    ($($wraps:ident($name:ident),)*) => {
        /// The first is number 1.
        pub const FAULTS: &[Fault] = &[$(Fault { name: stringify!($name), wraps: Wraps::$wraps($name) }),*];
    };
}

faults! {
    // In the board's rules: those of document 01, of Paper 2, of Paper 3.
    Step(read_untold),
    Step(ts_only),
    Step(set_kept),
    Step(equal_taken),
    Step(next_after_read),
    Step(cells_cleared),
    Board(nine_consoles),
    Step(disk_lost),
    Step(up_before_number),
    Step(waiting_lost),
    Step(up_twice),
    Step(new_best_compared),
    Step(mark_by_any),
    Step(mark_kept_at_turn),
    Step(refused_compared),
    Step(mark_kept_by_lower),
    Step(discarded_compared),
    Board(one_unmarked),
    // In demand 3's rules.
    Rules(bound_one_less),
    Rules(majority_one_less),
    Rules(reads_higher),
    // In the rules for lines.
    Line(limit_63),
    Line(limit_65),
    Line(cr_counted),
    Found(last_cr_left_off),
    Found(both_crs_left_off),
    Found(last_line_lost),
    Found(empty_unanswered),
    Line(fields_before_length),
    Line(verb_before_fields),
    Line(number_wraps),
    Line(half_quoted),
    Line(unused_unread),
    Line(small_board_taken),
    Line(node_up_unknown),
    // Of Paper 4: which reads finish early, what an early finish does, and which release a board has.
    Step(early_write),
    Step(early_unalike),
    Step(early_by_old_mark),
    Step(early_under_one),
    Step(early_one_short),
    Step(early_clears_cells),
    Step(early_sends_puts),
    Step(early_stays_telling),
    Step(early_keeps_best),
    Step(early_keeps_mark),
    Step(early_uncompared),
    Step(early_asks_10),
    Rules(early_bound_one_less),
    Step(release_lost),
    List(list_keeps_release),
    Words(three_is_two),
    Line(lines_under_two),
    // Of Paper 5: wrong numbers by which the tag of a put or of a reply is compared.
    Step(put_in_32_bits),
    Step(put_times_4),
    Step(reply_in_32_bits),
    Step(reply_times_4),
    // Of Paper 6: which frames are withdrawn, when, and what else becomes of them and of the board.
    Step(withdrawn_after_9),
    Step(withdrawn_taken),
    Step(withdrawn_by_row),
    Step(withdrawn_of_idle),
    Step(ask_not_withdrawn),
    Step(put_not_withdrawn),
    Step(withdrawn_handed),
    Step(withdrawn_stays),
    Step(withdrawn_at_down),
    // Of Paper 7: what a restart is refused with and what it does.
    Step(restart_keeps_life),
    Step(restart_life_1),
    Step(restart_leaves_cells),
    Step(restart_leaves_replies),
    Step(restart_empties_all),
    Step(restart_of_idle),
    Step(restart_of_waiting),
    Step(waiting_refused_7),
    Step(restart_before_number),
    Step(life_before_up),
    Step(last_life_999),
    Step(last_life_1001),
    Step(last_life_again),
    // Which life a tag and a console have, how lives are compared, and what of them is well formed.
    Step(write_life_0),
    Step(write_life_of_best),
    Step(read_own_life),
    Step(finished_own_life),
    Step(down_clears_life),
    Step(down_raises_life),
    Step(finish_clears_life),
    Step(early_clears_life),
    Step(begin_clears_life),
    Step(turn_clears_life),
    Step(put_without_life),
    Step(reply_without_life),
    Step(put_life_first),
    Step(reply_life_first),
    Step(put_life_before_ts),
    Step(reply_life_before_ts),
    Board(tag_life_any),
    Board(tag_life_999),
    Board(zero_with_life),
    Board(tag_beyond_console),
    Board(console_life_any),
    Board(console_life_999),
    Board(beyond_with_life),
    Rules(apart_without_life),
    List(list_keeps_lives),
    // In lines and the output.
    Line(restart_unknown),
    Line(eight_restarts),
    Line(fresh_keeps_lives),
    Line(life_of_console),
    Output(life_unwritten),
    Output(life_before_value),
    Output(life_written_0),
    // In which words are a board's: numbers that stand for nothing, and what is beside a frame.
    Words(state_else_down),
    Words(frame_else_ack),
    Words(set_cut),
    Words(up_else_on),
    Words(mark_else_on),
    Words(release_else_one),
    Words(version_unread),
    Words(version_cut),
    Words(life_cut),
    Words(life_capped),
    Words(node_life_unread),
    Words(best_life_unread),
    Words(frame_life_unread),
    Words(beside_nothing_unread),
    Words(beside_ask_unread),
    Words(beside_ack_unread),
    Words(tagged_all_zero),
    // Of Paper 8: which frames a preview counts, when, and under which refusals.
    Preview(counted_before),
    Preview(pairs_counted),
    Preview(row_counted_once),
    Preview(own_counted),
    Preview(only_to_nodes),
    Preview(only_waited_for),
    Preview(only_of_up_nodes),
    Preview(only_of_up_consoles),
    Preview(counted_under_1),
    Preview(none_under_8),
    Preview(none_if_refused),
    Preview(frame_counted_out),
    // Of Paper 9: what the link sends, in what order, and which state the picker keeps.
    Turn(idle_uncounted),
    Turn(tile_uncounted),
    Turn(start_sticks),
    Turn(tile_forgets_pair),
    Turn(idle_forgets_pair),
    Turn(tile_first_in_third),
    Turn(tile_first_in_first),
    Turn(frame_first_in_fourth),
    Turn(fourth_idle_without_tile),
    Turn(no_tile_in_three),
    Turn(in_threes),
    Turn(node_first),
    Turn(from_the_last),
    Turn(from_the_first),
    Turn(no_wrap),
    Turn(last_untried),
    Turn(console_wraps),
    Turn(any_frame_goes),
    Turn(ten_goes),
    Turn(withdrawn_stays_behind),
    Turn(answers_of_down_nodes_stay),
    Turn(discarded_stays_behind),
    Turn(asks_last),
    Turn(fifth_place),
    Turn(place_kept_out_of_range),
    Turn(pair_kept_out_of_range),
    Turn(range_of_any_board),
    Turn(refused_counted),
    Turn(refused_starts_anew),
    Turn(tile_under_1),
    // Of Paper 10: which records may be put to the rules.
    Shift(refuses_256),
    Shift(allows_257),
    Shift(unsound_before_many),
    Shift(unsound_in_turn),
    Shift(end_at_begin),
    Shift(end_before_begin),
    Shift(end_0_unsound),
    Shift(begin_0_unsound),
    Shift(own_console_judged),
    Shift(tag_console_8),
    Shift(tag_console_cut),
    Shift(tag_life_1001),
    Shift(tag_life_cut),
    Shift(ts_above_last),
    Shift(last_ts_unsound),
    Shift(zero_ts_of_console),
    Shift(zero_ts_of_life),
    Shift(write_of_ts_0),
    Shift(read_of_ts_0_unsound),
    Shift(judged_with_value),
    // Which record is told of, by which rule, and against which other one.
    Shift(first_in_time),
    Shift(first_to_end),
    Shift(last_in_list),
    Shift(rule_before_place),
    Shift(three_before_one),
    Shift(three_before_two),
    Shift(place_from_1),
    Shift(earlier_of_two),
    Shift(last_before),
    Shift(last_write_of_tag),
    Shift(other_value_untold),
    // Which writes share a tag.
    Shift(share_with_read),
    Shift(share_of_one_console),
    Shift(share_without_life),
    Shift(share_by_ts),
    Shift(share_with_neighbour),
    Shift(share_of_other_value),
    // Which reads have a write.
    Shift(any_value_read),
    Shift(any_zero_read),
    Shift(source_before),
    Shift(source_begun),
    Shift(source_ended),
    Shift(source_is_read),
    Shift(source_without_life),
    Shift(source_without_console),
    // Which operation comes before which, and what tag it may have after it.
    Shift(ends_at_begin),
    Shift(end_0_before_all),
    Shift(begins_before),
    Shift(lost_write_ends),
    Shift(reads_fall),
    Shift(writes_stay),
    Shift(reads_rise),
    Shift(order_without_life),
    Shift(order_without_console),
    Shift(order_by_ts),
    Shift(life_before_tag_console),
    Shift(order_of_writes),
    Shift(order_of_neighbours),
    Shift(order_as_listed),
    Shift(order_against_list),
    Shift(open_reads_left_out),
    // Of the record of a run: what stands in it of a write that is not finished.
    Listed(lost_write_ends_at_down),
    Listed(open_write_unlisted),
    // Of the program audit: which lines and which rows an input has.
    Rows(cr_kept),
    Rows(empty_last_row),
    Rows(very_last_cr_dropped),
    Rows(empty_rows_dropped),
    Rows(mark_dropped),
    Row(row_value_before_life),
    Row(kind_2),
    Row(row_life_1001),
    Row(nine_fields),
    Row(seven_fields),
    Row(quoted_comma_joins_none),
    Row(quotes_refused),
    Row(zeros_refused),
    Row(plus_allowed),
    Row(blanks_dropped),
    Row(row_tag_console_cut),
    Row(kind_before_numbers),
    Row(life_before_kind),
    // What an input comes to, and what is printed of it where.
    Report(rows_from_0),
    Report(reads_and_writes_crossed),
    Report(rows_crossed),
    Report(other_row_left_out),
    Report(ended_first_crossed),
    Report(refuses_256_rows),
    Report(no_row_before_many),
    Report(many_before_no_row),
    Report(unsound_before_no_row),
    Report(ts_0_before_end),
    Report(too_long_at_65535),
    Report(allows_65536),
    Report(too_long_before_many),
    Report(many_by_the_rest),
    Said(status_1_not_checkable),
    Said(fault_on_error),
    Said(not_checkable_on_output),
}

/// The runs that can show a fault: steps of the library, records of shifts, schedules, or records as rows.
#[derive(Clone, Copy, PartialEq, Eq)]
pub enum Runs {
    Steps,
    Records,
    Schedules,
    Audits,
}

impl Wraps {
    fn shown_by(self) -> Runs {
        match self {
            Wraps::Shift(_) | Wraps::Listed(_) => Runs::Records,
            Wraps::Found(_) | Wraps::Line(_) | Wraps::Output(_) => Runs::Schedules,
            Wraps::Rows(_) | Wraps::Row(_) | Wraps::Report(_) | Wraps::Said(_) => Runs::Audits,
            _ => Runs::Steps,
        }
    }
}

/// The model with a fault round it, or as it is.
#[derive(Clone, Copy)]
pub struct Faulty(pub Option<&'static Fault>);

impl Faulty {
    pub const NOT: Faulty = Faulty(None);

    /// With the fault of this number, or with none if it is 0.
    pub fn numbered(number: u64) -> Faulty {
        Faulty(FAULTS.get((number as usize).wrapping_sub(1)))
    }

    fn wraps(self) -> Option<Wraps> {
        self.0.map(|fault| fault.wraps)
    }

    pub fn is_faulty(self) -> bool {
        self.0.is_some()
    }

    /// Whether the fault is to be found by such runs; without a fault there is something to see in all of them.
    pub fn is_shown_by(self, runs: Runs) -> bool {
        self.wraps().is_none_or(|wraps| wraps.shown_by() == runs)
    }

    pub fn step(self, board: &Model, step: Step) -> (Answer, Model) {
        match self.wraps() {
            Some(Wraps::Step(change)) => Taken::changed(board, step, change),
            Some(Wraps::Board(_)) => self.taken_for(board).step(step),
            _ => board.step(step),
        }
    }

    /// The preview of a delivery that answered so and left this board.
    pub fn preview(self, before: &Model, pair: (u32, u32), (answer, after): (Answer, &Model)) -> Preview {
        let preview = Preview::of(answer, after);
        match self.wraps() {
            Some(Wraps::Preview(change)) => Foreseen::changed(before, pair, after, preview, change),
            _ => preview,
        }
    }

    /// A turn of the link: what it sends, and the state that it leaves.
    pub fn turn(self, board: &Model, picker: Picker, tile_waits: bool) -> (Result<Next, u32>, Picker) {
        match self.wraps() {
            Some(Wraps::Turn(change)) => Turned::changed(board, picker, tile_waits, change),
            _ => picker.turn(&self.taken_for(board), tile_waits),
        }
    }

    /// The check of a shift's records.
    pub fn check(self, records: &[Record]) -> shift::Said {
        match self.wraps() {
            Some(Wraps::Shift(change)) => Judged::changed(records, change),
            _ => shift::check(records),
        }
    }

    /// What of an operation stands in the record of its run, if anything does.
    pub fn listed(self, operation: &Operation) -> Option<Record> {
        match self.wraps() {
            Some(Wraps::Listed(listed)) => listed(operation),
            _ => operation.listed(),
        }
    }

    pub fn is_well_formed(self, board: &Model) -> bool {
        self.taken_for(board).is_well_formed()
    }

    fn taken_for(self, board: &Model) -> Model {
        let mut given = board.clone();
        if let Some(Wraps::Board(change)) = self.wraps() {
            change(&mut given);
        }
        given
    }

    /// The board that is written so; none if no board is.
    pub fn read(self, words: &Words) -> Option<Model> {
        let mut given = *words;
        if let Some(Wraps::Words(change)) = self.wraps() {
            change(&mut given);
        }
        words::read(&given)
    }

    /// A fresh in a list, put to this board, or to words that are no board's.
    pub fn fresh_in_list(self, board: Option<&Model>, n: u32, m: u32) -> Result<Model, u32> {
        let mut made = Model::fresh(n, m)?;
        if let (Some(Wraps::List(change)), Some(board)) = (self.wraps(), board) {
            change(board, &mut made);
        }
        Ok(made)
    }

    /// Demand 3's rules for n nodes.
    pub fn rules(self, n: u32) -> Rules {
        let mut rules = Rules::of(n);
        if let Some(Wraps::Rules(change)) = self.wraps() {
            change(&mut rules);
        }
        rules
    }

    /// The answers to all lines of an input.
    pub fn answers(self, input: &[u8]) -> Vec<schedule::Answer> {
        let lines = schedule::lines(input);
        match self.wraps() {
            Some(Wraps::Found(change)) => schedule::run(lines.filter_map(change), schedule::answer),
            Some(Wraps::Line(answer)) => schedule::run(lines, answer),
            _ => schedule::run(lines, schedule::answer),
        }
    }

    /// The output of these answers.
    pub fn written(self, answers: &[schedule::Answer]) -> Vec<u8> {
        match self.wraps() {
            Some(Wraps::Output(fields)) => schedule::written(answers, fields),
            _ => schedule::written(answers, |fields| fields.to_vec()),
        }
    }

    /// What an input comes to that is a shift's record as rows.
    pub fn report(self, input: &[u8]) -> Report {
        match self.wraps() {
            Some(Wraps::Rows(lines)) => audit::report(input, lines, audit::row),
            Some(Wraps::Row(row)) => audit::report(input, audit::lines, row),
            Some(Wraps::Report(change)) => change(input, Faulty::NOT.report(input)),
            _ => audit::report(input, audit::lines, audit::row),
        }
    }

    /// What is printed of it.
    pub fn said(self, report: &Report) -> Said {
        let mut said = audit_words::said(report);
        if let Some(Wraps::Said(change)) = self.wraps() {
            change(&mut said);
        }
        said
    }
}
