//! The picker in plain Rust, written to be fast.
use crate::plain::Board;
use hatukeno::{Next, Picker, Refusal};
use std::ops::Range;

/// A turn on a board of plain Rust, by the library's state.
pub fn turn<const CHECKED: bool>(picker: &mut Picker, board: &Board<CHECKED>, tile_waits: bool) -> Result<Next, Refusal> {
    board.ask_question_1()?;
    let (n, m) = board.size();
    if picker.place >= 4 || picker.console >= m || picker.node >= n {
        (picker.place, picker.console, picker.node) = (0, m - 1, n - 1);
    }
    let is_fourth = picker.place == 3;
    picker.place = (picker.place + 1) % 4;
    if is_fourth && tile_waits {
        return Ok(Next::Tile);
    }
    let Picker { console: last, node, .. } = *picker;
    let of_row = |c, mut nodes: Range<u32>| nodes.find(|k| board.is_deliverable(c, *k)).map(|k| (c, k));
    let found = of_row(last, node + 1..n)
        .or_else(|| (last + 1..m).chain(0..last).find_map(|c| of_row(c, 0..n)))
        .or_else(|| of_row(last, 0..node + 1));
    if let Some((console, node)) = found {
        (picker.console, picker.node) = (console, node);
        return Ok(Next::Frame { console, node });
    }
    Ok(if tile_waits { Next::Tile } else { Next::Nothing })
}
