//! Notices that nobody sleeps for.
use executor_core::plain_core::FlagValue;
use executor_core::task::Notice;

/// Spends the notice by a flag that says that nobody sleeps.
pub fn spend(notice: Notice) {
    match FlagValue::new().exchange(notice) {
        None => {}
        Some(_) => unreachable!(),
    }
}

/// Whether there was a notice, which is spent.
pub fn is_spent(notice: Option<Notice>) -> bool {
    match notice {
        Some(notice) => {
            spend(notice);
            true
        }
        None => false,
    }
}
