//! Document 02's request One: the screen page.

use crate::{Rules, Wrong};
use post::{Answer, Held, HeldRow, Screen};

/// What a page's area needs: a heading and 19 rows, of 80 bytes and a line end each.
pub(crate) const BYTES: usize = 1_620;
const ROWS: usize = 19;

impl Rules {
    /// A number, or what stands in its place, in so many columns.
    fn column(&self, text: impl ToString, width: usize) -> String {
        let text = text.to_string();
        match self.wrong {
            Some(Wrong::DigitsToTheLeft) => format!("{text:<width$}"),
            Some(Wrong::ZeroFilled) => format!("{text:0>width$}"),
            _ => format!("{text:>width$}"),
        }
    }

    /// Expiry less minute, or `past`.
    fn minutes_left(&self, expiry: u32) -> String {
        match i64::from(expiry) - i64::from(self.minute()) {
            0 if self.is(Wrong::AtExpiryOneLeft) => "1".into(),
            ..=0 => "past".into(),
            left => left.to_string(),
        }
    }

    /// A row without the blanks at its end.
    fn columns(&self, row: &HeldRow) -> String {
        let mut prefix: String = row.held.tag()[..8].iter().map(|byte| format!("{byte:02x}")).collect();
        if self.is(Wrong::PrefixUpperCase) {
            prefix = prefix.to_uppercase();
        }
        let (slot, left) = (
            self.column(row.slot, 20),
            self.column(self.minutes_left(row.held.expiry()), 10),
        );
        let (kind, last) = match &row.held {
            Held::Carried { depositor, envelope } => ('C', Some((envelope.copies, *depositor))),
            Held::Tombstone { .. } => ('T', self.is(Wrong::TombstoneHasCopies).then_some((0, 0))),
        };
        let front = format!("{slot} {kind} {prefix} {left}");
        match last {
            Some((copies, depositor)) => {
                format!("{front} {} {}", self.column(copies, 3), self.column(depositor, 20))
            }
            None => front,
        }
    }

    /// The held rows that pages show, by rising slot.
    fn shown(&self) -> Vec<&HeldRow> {
        let mut rows: Vec<&HeldRow> = self.state.held.iter().collect();
        if self.is(Wrong::ExpiredRowsLeaveThePage) {
            rows.retain(|row| row.held.expiry() > self.minute());
        }
        let by_table = self.is(Wrong::PageByTable);
        rows.sort_by_key(|row| (by_table && !row.held.is_carried(), row.slot));
        rows
    }

    pub(crate) fn page(&self, number: u64) -> Answer {
        let number = match self.wrong {
            Some(Wrong::PagesFrom1) => number.saturating_sub(1),
            Some(Wrong::PageNumberIn32Bits) => number % (1 << 32),
            _ => number,
        };
        let (rows, place) = (self.shown(), usize::try_from(number).unwrap_or(usize::MAX));
        let rows = rows
            .chunks(self.unless(Wrong::PageOf20, ROWS, 20))
            .nth(place)
            .unwrap_or(&[]);
        if rows.is_empty() && number > 0 && self.is(Wrong::PastTheLastIsEmpty) {
            return Answer::Page(Screen(Vec::new()));
        }
        let lines = ["HELD".into()]
            .into_iter()
            .chain(rows.iter().map(|row| self.columns(row)));
        let mut page: String = lines.map(|line| format!("{line:<80}\n")).collect();
        if self.is(Wrong::LastLineWithoutItsEnd) {
            page.pop();
        }
        Answer::Page(Screen(page.into_bytes()))
    }
}
