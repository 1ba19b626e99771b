//! Both sides on the same random months and runs of calls, and where they differ.

use crate::library::Library;
use crate::plain::pricing::LINES;
use crate::plain_side::Plain;
use crate::random::Random;
use crate::records::{AnswerRecord, EntryRecord, Run, Side};

pub const SEED: u64 = 0x4d6f_687a_6574_6e61;

const MONTHS: usize = 100_000;

/// Runs of 60 calls of any kind; of up to four months; of 48 months.
const SHORT_RUNS: usize = 2_000;

const RUNS: usize = 240;

const LONG_RUNS: usize = 12;

const DIFFERENCES_SHOWN: usize = 5;

const DONE: u32 = 1;

const REFUSED: u32 = 6;

/// How many answers were done, of each refusal, and of a damaged description.
#[derive(Default)]
struct Tally {
    done: usize,
    refused: [usize; 19],
    damaged: usize,
}

impl Tally {
    fn count(&mut self, answer: &AnswerRecord) {
        match answer.kind {
            REFUSED => self.refused[answer.number as usize] += 1,
            DONE..REFUSED => self.done += 1,
            _ => self.damaged += 1,
        }
    }

    fn print(&self) {
        print!("  taken {}, damaged {}", self.done, self.damaged);
        for (number, count) in self.refused.iter().enumerate() {
            if *count > 0 {
                print!(", refused with {number}: {count}");
            }
        }
        println!();
    }
}

#[derive(Default)]
struct Differences(usize);

impl Differences {
    fn check<T: PartialEq + std::fmt::Debug>(
        &mut self,
        what: impl Fn() -> String,
        library: T,
        plain: T,
    ) {
        if library != plain {
            self.0 += 1;
            if self.0 <= DIFFERENCES_SHOWN {
                println!(
                    "  differs: {}: library {library:?}, plain {plain:?}",
                    what()
                );
            }
        }
    }
}

/// How many months and answers differ.
pub fn compare() -> usize {
    months() + runs()
}

fn months() -> usize {
    let mut random = Random::new(SEED);
    let mut tally = Tally::default();
    let mut differences = Differences::default();
    for n in 0..MONTHS {
        let month = random.month();
        // what the cents held before has to stay where the month is refused
        let mut library = [n as i64; LINES];
        let mut plain = library;
        let given = Library::price(&month, &mut library);
        let expected = Plain::price(&month, &mut plain);
        tally.count(&given);
        let what = || format!("month {n}, {:?} {:?}", month.sheets.rate, month.facts);
        differences.check(what, (given, library), (expected, plain));
    }
    println!(
        "months, priced under any rate and riders (seed {SEED:#x}): compared {MONTHS}, differ {}",
        differences.0
    );
    tally.print();
    differences.0
}

struct Compared {
    tally: Tally,
    calls: usize,
    entries: usize,
    differences: Differences,
}

impl Compared {
    fn run(&mut self, n: usize, run: &Run) {
        let library = Library::answers(run);
        let plain = Plain::answers(run);
        let whole = || format!("run {n}, as a whole");
        self.differences.check(whole, library.whole, plain.whole);
        for (i, (given, expected)) in library.answers.iter().zip(&plain.answers).enumerate() {
            let what = || format!("run {n}, call {i}, {:?}", run.calls[i]);
            self.differences.check(what, given, expected);
            // a run whose sheets are refused performs no call
            if *given != AnswerRecord::default() {
                self.calls += 1;
                self.tally.count(given);
            }
        }
        let entries = library.entries.iter().zip(&plain.entries);
        for (i, (given, expected)) in entries.enumerate() {
            let what = || format!("run {n}, entry {i}");
            self.differences.check(what, given, expected);
            self.entries += usize::from(*given != EntryRecord::default());
        }
    }
}

fn runs() -> usize {
    let mut random = Random::new(SEED ^ 1);
    let mut compared = Compared {
        tally: Tally::default(),
        calls: 0,
        entries: 0,
        differences: Differences::default(),
    };
    for n in 0..SHORT_RUNS {
        compared.run(n, &random.chaos());
    }
    for n in 0..RUNS {
        let months = 1 + (n % 4) as u32;
        compared.run(SHORT_RUNS + n, &random.run(months, 40));
    }
    for n in 0..LONG_RUNS {
        compared.run(SHORT_RUNS + RUNS + n, &random.run(48, 10));
    }
    println!(
        "calls of a book, in {} runs: compared {}, with {} entries of ledgers, differ {}",
        SHORT_RUNS + RUNS + LONG_RUNS,
        compared.calls,
        compared.entries,
        compared.differences.0
    );
    compared.tally.print();
    compared.differences.0
}
