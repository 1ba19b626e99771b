//! The plain side: the same records, read into the types of `plain`.

use crate::plain::Refusal;
use crate::plain::book::{Book, EntryKind, PointCode, Reading};
use crate::plain::pricing::{LINES, Pile, price};
use crate::plain::rates::Rate;
use crate::plain::riders::Rider;
use crate::records::{
    AnswerRecord, CallRecord, EntryRecord, Month, RateRecord, RiderRecord, Run, Sheets, Side,
};

/// A description that is of nothing.
struct Damaged;

/// Why there is no more than a record.
enum Failure {
    Damaged,
    Refused(Refusal),
}

const DONE: u32 = 1;
const STARTED: u32 = 2;
const WRITTEN: u32 = 3;
const IS_DUE: u32 = 4;
const SUM: u32 = 5;
const REFUSED: u32 = 6;
const DAMAGED: u32 = 7;

impl From<Damaged> for Failure {
    fn from(_: Damaged) -> Failure {
        Failure::Damaged
    }
}

impl From<Refusal> for Failure {
    fn from(refusal: Refusal) -> Failure {
        Failure::Refused(refusal)
    }
}

impl From<Failure> for AnswerRecord {
    fn from(failure: Failure) -> AnswerRecord {
        match failure {
            Failure::Damaged => counting(DAMAGED, 0),
            Failure::Refused(refusal) => AnswerRecord {
                kind: REFUSED,
                number: refusal.number,
                month: refusal.month,
                rider: refusal.rider,
                place: refusal.place,
                ..AnswerRecord::default()
            },
        }
    }
}

fn counting(kind: u32, count: u64) -> AnswerRecord {
    AnswerRecord {
        kind,
        count,
        ..AnswerRecord::default()
    }
}

fn rate(record: &RateRecord) -> Result<Rate, Damaged> {
    let f = record.figures;
    Ok(match record.rate {
        0 | 1 => Rate::Dts(f),
        2 => Rate::Xts([f[0], f[1], f[2], f[3]]),
        3 => Rate::Dos([f[0], f[1], f[2], f[3]]),
        4 => Rate::Sts([f[0], f[1], f[2]]),
        _ => return Err(Damaged),
    })
}

fn rider(record: &RiderRecord) -> Result<Rider, Damaged> {
    let f = record.figures;
    Ok(match record.rider {
        0 => Rider::Energy([f[0], f[1]]),
        1 => Rider::Percent([f[0], f[1]]),
        2 => Rider::Credit(f),
        _ => return Err(Damaged),
    })
}

/// Sealed sheet by sheet, the rate first, so that the first that fails is the one answered.
fn pile(sheets: &Sheets) -> Result<Pile, Failure> {
    let rate = rate(&sheets.rate)?;
    rate.check()?;
    let mut riders = Vec::new();
    for record in &sheets.riders {
        let rider = rider(record)?;
        rider.check()?;
        riders.push(rider);
    }
    Ok(Pile { rate, riders })
}

fn part<T>(items: &[T], from: u32, count: u32) -> Result<&[T], Damaged> {
    let from = from as usize;
    items.get(from..from + count as usize).ok_or(Damaged)
}

fn perform(
    book: &mut Book,
    pile: &Pile,
    run: &Run,
    call: &CallRecord,
) -> Result<AnswerRecord, Failure> {
    let done = |()| counting(DONE, 0);
    Ok(match call.kind {
        0 => {
            let carried = part(&run.carried, call.from, call.count)?;
            done(book.open(PointCode(call.code), call.first, call.second, carried)?)
        }
        1 => counting(STARTED, book.start(call.place)?.into()),
        2 => {
            let reading = Reading {
                kw: call.first,
                kva: call.second,
            };
            done(book.post_reading(call.month, call.place, reading)?)
        }
        3 => {
            let readings = part(&run.readings, call.from, call.count)?;
            done(book.post_day(call.month, call.place, PointCode(call.code), readings)?)
        }
        4 => done(book.post_price(call.month, call.place, call.first)?),
        5 => done(book.post_schedule(call.month, call.place, call.first)?),
        6 => counting(WRITTEN, book.bill(call.month, pile)? as u64),
        7 => counting(WRITTEN, book.true_up(call.month, pile)? as u64),
        8 => done(book.finalise(call.month, pile)?),
        9 => counting(IS_DUE, book.due(call.month, pile)?.into()),
        10 => AnswerRecord {
            kind: SUM,
            cents: book.total(call.month, call.place)?,
            ..AnswerRecord::default()
        },
        _ => return Err(Failure::Damaged),
    })
}

pub struct Plain;

fn priced(month: &Month, cents: &mut [i64; LINES]) -> Result<AnswerRecord, Failure> {
    let pile = pile(&month.sheets)?;
    *cents = price(&pile, &month.facts, &month.hours)?;
    Ok(counting(DONE, 0))
}

impl Side for Plain {
    const NAME: &'static str = "plain Rust";

    // not inlined, as a call into a library is not
    #[inline(never)]
    fn price(month: &Month, cents: &mut [i64; LINES]) -> AnswerRecord {
        priced(month, cents).unwrap_or_else(AnswerRecord::from)
    }

    #[inline(never)]
    fn run(run: &Run, answers: &mut [AnswerRecord], entries: &mut [EntryRecord]) -> AnswerRecord {
        let pile = match pile(&run.sheets) {
            Ok(pile) => pile,
            Err(failure) => return failure.into(),
        };
        let mut book = Book::new(run.months as usize, entries.len());
        for (answer, call) in answers.iter_mut().zip(&run.calls) {
            *answer = perform(&mut book, &pile, run, call).unwrap_or_else(AnswerRecord::from);
        }
        for (record, entry) in entries.iter_mut().zip(book.ledger()) {
            *record = EntryRecord {
                month: entry.month.into(),
                letter: match entry.kind {
                    EntryKind::Bill => 0,
                    EntryKind::TrueUp => 1,
                },
                line: entry.line.into(),
                cents: entry.cents,
            };
        }
        counting(WRITTEN, book.ledger().len() as u64)
    }
}
