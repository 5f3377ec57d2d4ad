//! The occurrences of recurrence rules.

use super::rule::Recurrence;
use crate::any_calendar::{AnyCalendar, AnyCalendarKind};
use crate::calendar::Sealed;
use crate::engine::Chosen;
use crate::ffi::RawOccurrence;
use crate::lists::Window;
use crate::types::RataDie;
use alloc::vec::{self, Vec};

/// How many occurrences the first call is asked for. Each call counts from the start on, so later ones are asked for
/// more.
const FEW: usize = 16;

/// The most occurrences that a call is asked for.
const MANY: usize = 4096;

/// Returns whether a text is a recurrence rule of a calendar.
pub(super) fn is_rule(calendar: AnyCalendarKind, text: &str) -> bool {
    let chosen = AnyCalendar::new(calendar).chosen();
    let day = RataDie::new(1);
    let listed = chosen.rule_days(day, text.as_bytes(), (day, day), &mut []);
    listed.is_some()
}

/// An iterator over the days of a window on which a recurrence rule occurs.
pub(super) struct Occurrences<'b> {
    chosen: Chosen,
    rule: Recurrence<'b>,
    /// What no call has listed yet.
    left: Option<Window>,
    many: usize,
    listed: vec::IntoIter<RawOccurrence>,
}

impl<'b> Occurrences<'b> {
    pub(super) fn new(chosen: Chosen, rule: Recurrence<'b>, window: Window) -> Occurrences<'b> {
        Occurrences {
            chosen,
            rule,
            left: Some(window),
            many: FEW,
            listed: Vec::new().into_iter(),
        }
    }

    /// Lists the first days that are left.
    fn list(&mut self, window: Window) {
        let Recurrence { text, start, .. } = self.rule;
        let mut items = alloc::vec![RawOccurrence::default(); self.many];
        let listed = self
            .chosen
            .rule_days(start, text.as_bytes(), window.ends(), &mut items);
        let (written, next) = listed.expect("the text of a rule is one");
        items.truncate(written);
        self.listed = items.into_iter();
        self.left = Window::try_new(next, window.last());
        self.many = MANY.min(2 * self.many);
    }
}

impl Iterator for Occurrences<'_> {
    type Item = RataDie;

    fn next(&mut self) -> Option<RataDie> {
        loop {
            if let Some(item) = self.listed.next() {
                return Some(RataDie::new(item.day));
            }
            self.list(self.left?);
        }
    }
}
