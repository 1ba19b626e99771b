//! The library's side, by the functions of the static library.

use crate::plain::book::Reading;
use crate::plain::pricing::{Facts, Hour, LINES};
use crate::records::{
    AnswerRecord, CallRecord, EntryRecord, Month, RateRecord, RiderRecord, Run, Side,
};

unsafe extern "C" {
    fn mohzetna_price(
        rate: *const RateRecord,
        riders: *const RiderRecord,
        riders_len: usize,
        facts: *const Facts,
        hours: *const Hour,
        hours_len: usize,
        cents: *mut [i64; LINES],
    ) -> AnswerRecord;

    fn mohzetna_run(
        rate: *const RateRecord,
        riders: *const RiderRecord,
        riders_len: usize,
        months: u32,
        carried: *const u32,
        carried_len: usize,
        readings: *const Reading,
        readings_len: usize,
        calls: *const CallRecord,
        calls_len: usize,
        answers: *mut AnswerRecord,
        answers_len: usize,
        entries: *mut EntryRecord,
        entries_len: usize,
    ) -> AnswerRecord;
}

pub struct Library;

impl Side for Library {
    const NAME: &'static str = "library";

    fn price(month: &Month, cents: &mut [i64; LINES]) -> AnswerRecord {
        // SAFETY: each pointer comes from a reference of this call, with its slice's own length.
        unsafe {
            mohzetna_price(
                &month.sheets.rate,
                month.sheets.riders.as_ptr(),
                month.sheets.riders.len(),
                &month.facts,
                month.hours.as_ptr(),
                month.hours.len(),
                cents,
            )
        }
    }

    fn run(run: &Run, answers: &mut [AnswerRecord], entries: &mut [EntryRecord]) -> AnswerRecord {
        // SAFETY: as above.
        unsafe {
            mohzetna_run(
                &run.sheets.rate,
                run.sheets.riders.as_ptr(),
                run.sheets.riders.len(),
                run.months,
                run.carried.as_ptr(),
                run.carried.len(),
                run.readings.as_ptr(),
                run.readings.len(),
                run.calls.as_ptr(),
                run.calls.len(),
                answers.as_mut_ptr(),
                answers.len(),
                entries.as_mut_ptr(),
                entries.len(),
            )
        }
    }
}
