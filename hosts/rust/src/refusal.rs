//! Why a call is refused.

use std::fmt;

/// Why a call was refused, by the number of document 01. A refused call has changed nothing.
#[derive(Clone, Copy, Debug, PartialEq, Eq, Hash)]
#[non_exhaustive]
pub enum Refusal {
    /// A part of the tables has the wrong length, or the tables are not sound.
    NotSound,
    /// Set-up: the capacity is not in the table.
    NoSuchCapacity,
    /// Insert: the key is present.
    KeyPresent,
    /// Lookup, remove: the key is absent.
    KeyAbsent,
    /// Insert: no node is free.
    NoFreeNode,
    /// Fast range, open: the lower bound is above the upper one.
    BoundsReversed,
    /// Fast range: more than 64 present pairs are within the bounds.
    TooManyPairs,
    /// Fast range: a pair buffer has fewer places than there are pairs. Step: it has none.
    TooFewPlaces,
    /// Open: sixteen ranges are open.
    AllTicketsOpen,
    /// Open: the version counter is at its last number.
    LastVersion,
    /// Step, close: no open range has that version.
    NoSuchRange,
    /// Hand over: the node is not pending, or there is no such node.
    NodeNotPending,
    /// Ceil, floor, succ, pred: no present key is there.
    NoPresentKey,
    /// A number that this wrapper does not know.
    Unknown(u32),
}

impl Refusal {
    /// Every refusal that this wrapper knows, in the order of the numbers.
    pub const ALL: [Refusal; 13] = [
        Refusal::NotSound,
        Refusal::NoSuchCapacity,
        Refusal::KeyPresent,
        Refusal::KeyAbsent,
        Refusal::NoFreeNode,
        Refusal::BoundsReversed,
        Refusal::TooManyPairs,
        Refusal::TooFewPlaces,
        Refusal::AllTicketsOpen,
        Refusal::LastVersion,
        Refusal::NoSuchRange,
        Refusal::NodeNotPending,
        Refusal::NoPresentKey,
    ];

    /// The refusal's number in document 01.
    pub fn number(self) -> u32 {
        match self {
            Refusal::NotSound => 1,
            Refusal::NoSuchCapacity => 2,
            Refusal::KeyPresent => 3,
            Refusal::KeyAbsent => 4,
            Refusal::NoFreeNode => 5,
            Refusal::BoundsReversed => 6,
            Refusal::TooManyPairs => 7,
            Refusal::TooFewPlaces => 8,
            Refusal::AllTicketsOpen => 9,
            Refusal::LastVersion => 10,
            Refusal::NoSuchRange => 11,
            Refusal::NodeNotPending => 12,
            Refusal::NoPresentKey => 13,
            Refusal::Unknown(number) => number,
        }
    }

    /// The refusal of that number, [`Refusal::Unknown`] where this wrapper does not know it; none for 0,
    /// which is no refusal.
    pub fn of_number(number: u32) -> Option<Refusal> {
        let known = Refusal::ALL.into_iter().find(|refusal| refusal.number() == number);
        match number {
            0 => None,
            _ => Some(known.unwrap_or(Refusal::Unknown(number))),
        }
    }
}

impl fmt::Display for Refusal {
    fn fmt(&self, to: &mut fmt::Formatter<'_>) -> fmt::Result {
        let meaning = match self {
            Refusal::NotSound => "a part of the tables has the wrong length, or they are not sound",
            Refusal::NoSuchCapacity => "the capacity is not in the table",
            Refusal::KeyPresent => "the key is present",
            Refusal::KeyAbsent => "the key is absent",
            Refusal::NoFreeNode => "no node is free",
            Refusal::BoundsReversed => "the lower bound is above the upper one",
            Refusal::TooManyPairs => "more than 64 present pairs are within the bounds",
            Refusal::TooFewPlaces => "a pair buffer has too few places",
            Refusal::AllTicketsOpen => "sixteen ranges are open",
            Refusal::LastVersion => "the version counter is at its last number",
            Refusal::NoSuchRange => "no open range has that version",
            Refusal::NodeNotPending => "the node is not pending, or there is no such node",
            Refusal::NoPresentKey => "no present key is there",
            Refusal::Unknown(_) => "a reason that this wrapper does not know",
        };
        write!(to, "{meaning} (refusal {})", self.number())
    }
}

impl std::error::Error for Refusal {}
