//! The records that cross from C: what the static library takes and gives, as its crate `exports`
//! lays them out.

use crate::plain::book::Reading;
use crate::plain::pricing::{Facts, Hour, LINES};

/// The most figures that the sheet of a rate has, and that of a rider.
pub const RATE_FIGURES: usize = 8;

pub const RIDER_FIGURES: usize = 6;

#[repr(C)]
#[derive(Clone, Copy, Debug)]
pub struct RateRecord {
    pub rate: u32,
    pub figures: [i64; RATE_FIGURES],
}

#[repr(C)]
#[derive(Clone, Copy, Debug)]
pub struct RiderRecord {
    pub rider: u32,
    pub figures: [i64; RIDER_FIGURES],
}

#[repr(C)]
#[derive(Clone, Copy, PartialEq, Eq, Debug, Default)]
pub struct AnswerRecord {
    pub kind: u32,
    pub number: u32,
    pub month: u32,
    pub rider: u32,
    pub place: u64,
    pub count: u64,
    pub cents: i64,
}

#[repr(C)]
#[derive(Clone, Copy, Debug, Default)]
pub struct CallRecord {
    pub kind: u32,
    pub month: u32,
    pub place: u32,
    pub first: u32,
    pub second: u32,
    pub from: u32,
    pub count: u32,
    pub code: [u8; 8],
}

#[repr(C)]
#[derive(Clone, Copy, PartialEq, Eq, Debug, Default)]
pub struct EntryRecord {
    pub month: u32,
    pub letter: u32,
    pub line: u32,
    pub cents: i64,
}

/// A rate and riders over it, the lowest first.
pub struct Sheets {
    pub rate: RateRecord,
    pub riders: Vec<RiderRecord>,
}

/// A month to be priced.
pub struct Month {
    pub sheets: Sheets,
    pub facts: Facts,
    pub hours: Vec<Hour>,
}

/// A run of calls on a new book, with the lists that the calls refer to.
pub struct Run {
    pub sheets: Sheets,
    /// Memory for so many months and entries.
    pub months: u32,
    pub entries: usize,
    pub carried: Vec<u32>,
    pub readings: Vec<Reading>,
    pub calls: Vec<CallRecord>,
}

/// What a run answers: the whole of it, each call, and the ledger.
#[derive(PartialEq, Eq, Debug)]
pub struct RunAnswers {
    pub whole: AnswerRecord,
    pub answers: Vec<AnswerRecord>,
    pub entries: Vec<EntryRecord>,
}

/// One of the two sides.
pub trait Side {
    const NAME: &'static str;

    fn price(month: &Month, cents: &mut [i64; LINES]) -> AnswerRecord;

    /// Over as many answers as there are calls.
    fn run(run: &Run, answers: &mut [AnswerRecord], entries: &mut [EntryRecord]) -> AnswerRecord;

    fn answers(run: &Run) -> RunAnswers {
        let mut answers = vec![AnswerRecord::default(); run.calls.len()];
        let mut entries = vec![EntryRecord::default(); run.entries];
        let whole = Self::run(run, &mut answers, &mut entries);
        RunAnswers {
            whole,
            answers,
            entries,
        }
    }
}
