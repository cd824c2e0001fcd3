//! Why a call was refused.
use std::error::Error;
use std::fmt;

/// Why a call was refused: the first of its tests that was not passed.
#[derive(Clone, Copy, Debug, PartialEq, Eq, Hash)]
#[repr(u32)]
pub enum Refusal {
    /// Fewer than two offsets, n or E above its limit, or a table that has not n entries.
    BadSize = 1,
    /// Work has fewer than 8n + E entries, starts have fewer than n + 1, or a list has too few.
    NoRoom = 2,
    /// The first offset is not 0, an offset falls, or the last is not E.
    BadOffsets = 3,
    /// A target, or a vertex argument of a query, is n or more.
    BadVertex = 4,
    /// The root of a build is n or more.
    BadRoot = 5,
    /// Some v stands in u's list more or less often than u in v's.
    NotSymmetric = 6,
    /// Symmetric, but some vertex is not reached from the root.
    Disconnected = 7,
    /// Symmetric and all reached, but no tree.
    HasCycle = 8,
    /// A query met an entry that is not sound. Tables that a build wrote never give this.
    BadTable = 9,
    /// There are fewer steps than were asked for.
    TooFar = 10,
}

impl Refusal {
    /// All refusals, in the order of their numbers.
    pub const ALL: [Refusal; 10] = [
        Refusal::BadSize,
        Refusal::NoRoom,
        Refusal::BadOffsets,
        Refusal::BadVertex,
        Refusal::BadRoot,
        Refusal::NotSymmetric,
        Refusal::Disconnected,
        Refusal::HasCycle,
        Refusal::BadTable,
        Refusal::TooFar,
    ];

    /// The number of the refusal, from 1 to 10.
    pub fn code(self) -> u32 {
        self as u32
    }

    /// The refusal with this number, if there is one.
    pub fn from_code(code: u32) -> Option<Refusal> {
        Refusal::ALL
            .into_iter()
            .find(|refusal| refusal.code() == code)
    }
}

impl fmt::Display for Refusal {
    fn fmt(&self, f: &mut fmt::Formatter<'_>) -> fmt::Result {
        f.write_str(match self {
            Refusal::BadSize => "a size is beyond its limit, or a table is not of length n",
            Refusal::NoRoom => "the room that is lent is too short",
            Refusal::BadOffsets => "the offsets do not rise from 0 to the number of targets",
            Refusal::BadVertex => "a vertex is n or more",
            Refusal::BadRoot => "the root is n or more",
            Refusal::NotSymmetric => "the lists are not symmetric",
            Refusal::Disconnected => "some vertex is not reached from the root",
            Refusal::HasCycle => "the graph has a cycle",
            Refusal::BadTable => "a table has an entry that is not sound",
            Refusal::TooFar => "there are fewer steps than were asked for",
        })
    }
}

impl Error for Refusal {}
