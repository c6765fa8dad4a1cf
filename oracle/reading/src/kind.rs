//! The table of kinds: "Each kind's name, length and family stand in one fixed
//! table."

use crate::status::Status;

/// A node's kind. The number of each is its place in [`TABLE`], from 1.
#[derive(Clone, Copy, Debug, PartialEq, Eq)]
pub enum Kind {
    /// Answers what the row gives it.
    Leaf = 1,
    /// Answers success.
    AlwaysSuccess,
    /// Answers failure.
    AlwaysFailure,
    /// Advances on success and resumes at its cursor.
    Sequence,
    /// Advances on success and starts anew on every tick.
    ReactiveSequence,
    /// Advances on failure and resumes at its cursor.
    Fallback,
    /// Advances on failure and starts anew on every tick.
    ReactiveFallback,
    /// Exchanges success and failure.
    Inverter,
    /// Turns both into success.
    ForceSuccess,
    /// Turns both into failure.
    ForceFailure,
    /// Never lowered.
    Sleep,
    /// Never lowered.
    Parallel,
    /// Never lowered.
    IfThenElse,
    /// Never lowered.
    WhileDoElse,
    /// Never lowered.
    Timeout,
    /// Never lowered.
    Repeat,
    /// Never lowered.
    RetryUntilSuccessful,
    /// Never lowered.
    KeepRunningUntilFailure,
}

/// What kinds have in common.
#[derive(Clone, Copy, Debug, PartialEq, Eq)]
pub enum Family {
    /// Takes a slot of the leaf row.
    Leaf,
    /// Has no child and one answer.
    Constant(Status),
    /// Has one child or more, in order.
    Composite {
        /// "Sequences advance on Success, fallbacks on Failure."
        advance: Status,
        /// "Each of kinds 4 and 6 owns a cursor cell."
        memory: bool,
    },
    /// Has one child and rewrites its answer.
    Decorator(Rewrite),
    /// Kinds 11 to 18.
    NeverLowered,
}

/// What a decorator makes of its child's answer; "running passes".
#[derive(Clone, Copy, Debug, PartialEq, Eq)]
pub enum Rewrite {
    /// "Inverter exchanges success and failure."
    Exchange,
    /// "Force turns both into its own."
    Force(Status),
}

/// A row of the table.
#[derive(Clone, Copy, Debug)]
pub struct Row {
    /// The kind itself.
    pub kind: Kind,
    /// Its name, which is also the Rust's.
    pub name: &'static str,
    /// The record's length: the bytes that follow the length. A kind that is
    /// never lowered has none.
    pub length: Option<u16>,
    /// Its family.
    pub family: Family,
}

const PLAIN: Option<u16> = Some(2);
const COUNTED: Option<u16> = Some(4);

const fn row(kind: Kind, name: &'static str, length: Option<u16>, family: Family) -> Row {
    Row {
        kind,
        name,
        length,
        family,
    }
}

const fn composite(kind: Kind, name: &'static str, advance: Status, memory: bool) -> Row {
    row(kind, name, COUNTED, Family::Composite { advance, memory })
}

const fn decorator(kind: Kind, name: &'static str, rewrite: Rewrite) -> Row {
    row(kind, name, PLAIN, Family::Decorator(rewrite))
}

const fn constant(kind: Kind, name: &'static str, status: Status) -> Row {
    row(kind, name, PLAIN, Family::Constant(status))
}

const fn never(kind: Kind, name: &'static str) -> Row {
    row(kind, name, None, Family::NeverLowered)
}

/// The table, in the order of the kinds' numbers.
pub const TABLE: [Row; 18] = [
    row(Kind::Leaf, "Leaf", PLAIN, Family::Leaf),
    constant(Kind::AlwaysSuccess, "AlwaysSuccess", Status::Success),
    constant(Kind::AlwaysFailure, "AlwaysFailure", Status::Failure),
    composite(Kind::Sequence, "Sequence", Status::Success, true),
    composite(
        Kind::ReactiveSequence,
        "ReactiveSequence",
        Status::Success,
        false,
    ),
    composite(Kind::Fallback, "Fallback", Status::Failure, true),
    composite(
        Kind::ReactiveFallback,
        "ReactiveFallback",
        Status::Failure,
        false,
    ),
    decorator(Kind::Inverter, "Inverter", Rewrite::Exchange),
    decorator(
        Kind::ForceSuccess,
        "ForceSuccess",
        Rewrite::Force(Status::Success),
    ),
    decorator(
        Kind::ForceFailure,
        "ForceFailure",
        Rewrite::Force(Status::Failure),
    ),
    never(Kind::Sleep, "Sleep"),
    never(Kind::Parallel, "Parallel"),
    never(Kind::IfThenElse, "IfThenElse"),
    never(Kind::WhileDoElse, "WhileDoElse"),
    never(Kind::Timeout, "Timeout"),
    never(Kind::Repeat, "Repeat"),
    never(Kind::RetryUntilSuccessful, "RetryUntilSuccessful"),
    never(Kind::KeepRunningUntilFailure, "KeepRunningUntilFailure"),
];

impl Kind {
    /// The kinds without a child.
    pub const CHILDLESS: [Self; 3] = [Self::Leaf, Self::AlwaysSuccess, Self::AlwaysFailure];
    /// The composites.
    pub const COMPOSITES: [Self; 4] = [
        Self::Sequence,
        Self::ReactiveSequence,
        Self::Fallback,
        Self::ReactiveFallback,
    ];
    /// The decorators.
    pub const DECORATORS: [Self; 3] = [Self::Inverter, Self::ForceSuccess, Self::ForceFailure];

    /// The kind's number in tree bytes.
    pub fn number(self) -> u16 {
        self as u16
    }

    /// The kind of this number; "kind 0 or above 18" is none.
    pub fn from_number(number: u16) -> Option<Self> {
        let place = usize::from(number).checked_sub(1)?;
        Some(TABLE.get(place)?.kind)
    }

    /// The kind's row.
    pub fn row(self) -> &'static Row {
        &TABLE[self as usize - 1]
    }

    /// The kind's family.
    pub fn family(self) -> Family {
        self.row().family
    }

    /// Whether the kind is one of 4 to 7.
    pub fn is_composite(self) -> bool {
        matches!(self.family(), Family::Composite { .. })
    }

    /// Whether the kind owns a cursor cell.
    pub fn has_cursor(self) -> bool {
        matches!(self.family(), Family::Composite { memory: true, .. })
    }
}

#[cfg(test)]
mod tests {
    use super::*;

    #[test]
    fn the_rows_stand_at_their_numbers() {
        for (place, row) in TABLE.iter().enumerate() {
            assert_eq!(usize::from(row.kind.number()), place + 1);
            assert_eq!(Kind::from_number(row.kind.number()), Some(row.kind));
        }
        for number in [0, 19, 255, 256, 257, u16::MAX] {
            assert_eq!(Kind::from_number(number), None);
        }
    }
}
