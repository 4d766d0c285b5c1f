//! The lines that a test is made of, taken in turn.
use std::test::Fail;

/// Takes lines of one kind, each of which says what is done and what has to come of it.
pub trait Player<L> {
    /// Whether what comes of the line is what has to.
    fn holds(&mut self, line: L) -> Result<bool, Fail>;
}

/// Takes the lines in turn. The test fails at the first that does not hold.
pub fn play<L: Copy, P: Player<L> + Drop>(mut player: P, lines: &[L]) -> Result<(), Fail> {
    for (before, line) in lines.iter().enumerate() {
        if !player.holds(*line)? {
            let place = before.saturating_add(1);
            return Err(Fail::new(format_args!("line {place} does not hold")));
        }
    }
    Ok(())
}
