//! What is said behind each table of lines that the player took on an executor.
use crate::support::line::Line;
use executor_core::recorder::{self, Ending, Kind};
use std::test::Fail;

// Whether a tick or a run keeps a share of the executor, which is never dropped then.
fn keeps_a_share(line: &Line) -> bool {
    matches!(line, Line::MakeTick | Line::MakeRun(_) | Line::Used)
}

/// Prints the log of a table on an executor, which is gone, or is left. If its drop closes it and nobody
/// keeps a share of it, it was closed.
pub fn end(is_closed_by_drop: bool, lines: &[Line]) -> Result<(), Fail> {
    let is_closed = is_closed_by_drop && !lines.iter().any(|line| keeps_a_share(line));
    let ending = if is_closed { Ending::Closed } else { Ending::Kept };
    if !recorder::print(Kind::Table, recorder::next_of_table(), ending) {
        return Err("no room for the log".into());
    }
    Ok(())
}
