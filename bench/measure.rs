//! What is measured: each work once as it is and once without what is asked about, so that the
//! difference is what it takes.

use std::hint::black_box;
use std::time::Instant;

use crate::library::Library;
use crate::plain::book::Reading;
use crate::plain::pricing::{Facts, Hour, LINES};
use crate::plain_side::Plain;
use crate::random::{BILL, CODE, DAY_QUARTERS, DUE, OPEN, POST_DAY, POST_PRICE, Random, START};
use crate::records::{
    AnswerRecord, CallRecord, EntryRecord, Month, RateRecord, RiderRecord, Run, Sheets, Side,
};

/// The least of so many rounds counts, the sides by turns.
const ROUNDS: usize = 41;

const MONTHS: u32 = 48;

const DAYS: u32 = 31;

/// What one round of the timing does, and a run under callgrind.
#[derive(Clone, Copy)]
pub enum Work {
    Price { under: Under, times: usize },
    PostDay { times: usize },
    Bill { months: u32 },
    Due { times: usize },
}

#[derive(Clone, Copy)]
pub enum Under {
    Dts,
    Xts,
    Dos,
    Sts,
    DtsWithRiders,
}

/// A thing that is measured: its work, the same without it, and how often the one does it.
struct Measured {
    name: &'static str,
    unit: &'static str,
    work: Work,
    without: Work,
    times: usize,
}

const fn pricing(name: &'static str, under: Under) -> Measured {
    const TIMES: usize = 200;
    Measured {
        name,
        unit: "a month of 744 hours",
        work: Work::Price {
            under,
            times: TIMES,
        },
        without: Work::Price { under, times: 0 },
        times: TIMES,
    }
}

const MEASURED: [Measured; 8] = [
    pricing("price under DTS", Under::Dts),
    pricing("price under XTS", Under::Xts),
    pricing("price under DOS", Under::Dos),
    pricing("price under STS", Under::Sts),
    pricing("price under DTS and 3 riders", Under::DtsWithRiders),
    Measured {
        name: "post a day",
        unit: "a day",
        work: Work::PostDay { times: 4_000 },
        without: Work::PostDay { times: 0 },
        times: 4_000,
    },
    Measured {
        name: "bill 48 months",
        unit: "48 months",
        work: Work::Bill { months: MONTHS },
        without: Work::Bill { months: 0 },
        times: 1,
    },
    Measured {
        name: "due, the ledger full",
        unit: "a call",
        work: Work::Due { times: 200 },
        without: Work::Due { times: 0 },
        times: 200,
    },
];

fn sheets(under: Under) -> Sheets {
    let (rate, figures) = match under {
        Under::Dts | Under::DtsWithRiders => {
            (0, [161_500, 141, 65_800, 2_274_500, 374, 99, 6_800, 40_000])
        }
        Under::Xts => (2, [377, 374, 99, 10, 0, 0, 0, 0]),
        Under::Dos => (3, [528, 50_000, 10_000, 500, 0, 0, 0, 0]),
        Under::Sts => (4, [-300, 10_000, 25_900, 0, 0, 0, 0, 0]),
    };
    let riders = match under {
        Under::DtsWithRiders => vec![
            RiderRecord {
                rider: 2,
                figures: [1, 217_500, 75_200, 44_100, 42_500, 386_700],
            },
            RiderRecord {
                rider: 0,
                figures: [2, -35, 0, 0, 0, 0],
            },
            RiderRecord {
                rider: 1,
                figures: [3, 100, 0, 0, 0, 0],
            },
        ],
        _ => vec![],
    };
    let rate = RateRecord { rate, figures };
    Sheets { rate, riders }
}

fn month(under: Under) -> Month {
    let mut random = Random::new(7);
    let hours = (0..744).map(|hour| Hour {
        energy: 30_000 + random.below(20_000) as u32,
        price: 2_000 + random.below(10_000) as u32,
        scheduled: if hour % 3 == 0 { 9_000 } else { 0 },
    });
    Month {
        sheets: sheets(under),
        facts: Facts {
            contract: 20_000,
            substation: 30_000,
            peak: 12_500,
            peak_kva: 15_000,
            ratchet_peak: 14_000,
        },
        hours: hours.collect(),
    }
}

fn call(kind: u32, month: u32, place: u32) -> CallRecord {
    CallRecord {
        kind,
        month,
        place,
        ..CallRecord::default()
    }
}

fn day(random: &mut Random, month: u32, day: u32) -> CallRecord {
    CallRecord {
        from: DAY_QUARTERS * random.below(16) as u32,
        count: DAY_QUARTERS,
        code: CODE,
        ..call(POST_DAY, month, day)
    }
}

/// An opened book of so many months with nothing posted.
fn new_book(months: u32) -> Run {
    let mut random = Random::new(11);
    let readings = (0..16 * DAY_QUARTERS).map(|_| {
        let kw = 5_000 + random.below(10_000) as u32;
        Reading {
            kw,
            kva: kw + random.below(2_000) as u32,
        }
    });
    let readings = readings.collect();
    let mut calls = vec![CallRecord {
        first: 20_000,
        second: 30_000,
        count: 2,
        code: CODE,
        ..call(OPEN, 0, 0)
    }];
    calls.extend((0..months).map(|_| call(START, 0, DAYS)));
    Run {
        sheets: sheets(Under::Dts),
        months,
        // each month's bill, and no room for more
        entries: LINES * months as usize,
        carried: vec![14_000, 13_000],
        readings,
        calls,
    }
}

/// Every month posted, and the first so many billed.
fn billed(bills: u32) -> Run {
    let mut run = new_book(MONTHS);
    let mut random = Random::new(13);
    for month in 1..=MONTHS {
        for d in 0..DAYS {
            run.calls.push(day(&mut random, month, d));
        }
        for hour in 0..24 * DAYS {
            run.calls.push(CallRecord {
                first: 2_000 + random.below(10_000) as u32,
                ..call(POST_PRICE, month, hour)
            });
        }
    }
    run.calls
        .extend((1..=bills).map(|month| call(BILL, month, 0)));
    run
}

fn run_of(work: Work) -> Run {
    match work {
        Work::PostDay { times } => {
            let mut run = new_book(1);
            let mut random = Random::new(17);
            for n in 0..times {
                run.calls.push(day(&mut random, 1, n as u32 % DAYS));
            }
            run
        }
        Work::Bill { months } => billed(months),
        Work::Due { times } => {
            let mut run = billed(MONTHS);
            run.calls.extend((0..times).map(|_| call(DUE, MONTHS, 0)));
            run
        }
        Work::Price { .. } => new_book(1),
    }
}

/// The inputs of a work, made once.
struct Prepared {
    work: Work,
    month: Month,
    run: Run,
    answers: Vec<AnswerRecord>,
    entries: Vec<EntryRecord>,
}

impl Prepared {
    fn new(work: Work) -> Prepared {
        let month = match work {
            Work::Price { under, .. } => month(under),
            _ => month(Under::Dts),
        };
        let run = run_of(work);
        Prepared {
            work,
            month,
            answers: vec![AnswerRecord::default(); run.calls.len()],
            entries: vec![EntryRecord::default(); run.entries],
            run,
        }
    }

    fn perform<S: Side>(&mut self) {
        match self.work {
            Work::Price { times, .. } => {
                let mut cents = [0; LINES];
                for _ in 0..times {
                    black_box(S::price(black_box(&self.month), &mut cents));
                }
                black_box(cents);
            }
            _ => {
                let whole = S::run(black_box(&self.run), &mut self.answers, &mut self.entries);
                black_box(whole);
            }
        }
    }

    fn nanoseconds<S: Side>(&mut self) -> f64 {
        let begin = Instant::now();
        self.perform::<S>();
        begin.elapsed().as_nanos() as f64
    }

    /// Every call is taken, or the measure would be of refusals.
    fn check<S: Side>(&mut self) {
        self.perform::<S>();
        let refused = self.answers.iter().position(|answer| answer.kind >= 6);
        assert_eq!(refused, None, "{}: a call is refused", S::NAME);
    }
}

/// For each thing measured a line: its name, its unit, and what it takes on each side, in
/// nanoseconds, by the least of the rounds.
pub fn measure() {
    for measured in &MEASURED {
        let mut with = Prepared::new(measured.work);
        let mut without = Prepared::new(measured.without);
        with.check::<Library>();
        with.check::<Plain>();
        let mut library = Least::new();
        let mut plain = Least::new();
        for _ in 0..ROUNDS {
            library.round::<Library>(&mut with, &mut without);
            plain.round::<Plain>(&mut with, &mut without);
        }
        println!(
            "{}\t{}\t{:.1}\t{:.1}",
            measured.name,
            measured.unit,
            library.each(measured.times),
            plain.each(measured.times)
        );
    }
}

/// The least time of a work, and of the same without what is asked about.
struct Least {
    with: f64,
    without: f64,
}

impl Least {
    fn new() -> Least {
        Least {
            with: f64::INFINITY,
            without: f64::INFINITY,
        }
    }

    fn round<S: Side>(&mut self, with: &mut Prepared, without: &mut Prepared) {
        self.with = self.with.min(with.nanoseconds::<S>());
        self.without = self.without.min(without.nanoseconds::<S>());
    }

    fn each(&self, times: usize) -> f64 {
        (self.with - self.without) / times as f64
    }
}

/// One work of one side and nothing else, for a count of its instructions: the number of the thing
/// measured, and whether with or without it.
pub fn perform(side: &str, number: usize, with: bool) {
    let measured = &MEASURED[number];
    let mut prepared = Prepared::new(if with {
        measured.work
    } else {
        measured.without
    });
    match side {
        "library" => prepared.perform::<Library>(),
        _ => prepared.perform::<Plain>(),
    }
}

/// The name and the number of times of each thing measured, for the count's table.
pub fn list() {
    for (number, measured) in MEASURED.iter().enumerate() {
        println!("{number}\t{}\t{}", measured.times, measured.name);
    }
}
