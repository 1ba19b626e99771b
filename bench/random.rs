//! Months and runs of calls, drawn by a small generator from a seed.

use crate::plain::book::Reading;
use crate::plain::pricing::{Facts, Hour};
use crate::records::{CallRecord, Month, RateRecord, RiderRecord, Run, Sheets};

/// xorshift64*, enough to vary inputs.
pub struct Random(u64);

/// The limits of the figures of each rate and rider, in the order of their sheets.
const RATE_LIMITS: [&[(i64, i64)]; 5] =
    [DTS_LIMITS, DTS_LIMITS, XTS_LIMITS, DOS_LIMITS, STS_LIMITS];

const DTS_LIMITS: &[(i64, i64)] = &[
    (0, 10_000_000),
    (0, 100_000),
    (0, 10_000_000),
    (0, 10_000_000),
    (0, 10_000),
    (0, 100_000),
    (0, 10_000_000),
    (0, 10_000_000),
];

const XTS_LIMITS: &[(i64, i64)] = &[(0, 100_000), (0, 10_000), (0, 100_000), (0, 100_000)];

const DOS_LIMITS: &[(i64, i64)] = &[
    (0, 100_000),
    (0, 10_000_000),
    (1, 1_000_000),
    (-10_000, 10_000),
];

const STS_LIMITS: &[(i64, i64)] = &[(-10_000, 10_000), (0, 1_000_000), (0, 10_000_000)];

const RIDER_LIMITS: [&[(i64, i64)]; 3] = [
    &[(1, 65_535), (-100_000, 100_000)],
    &[(1, 65_535), (-10_000, 10_000)],
    &[
        (1, 65_535),
        (0, 500_000),
        (0, 500_000),
        (0, 500_000),
        (0, 500_000),
        (0, 10_000_000),
    ],
];

/// The kinds of call by their numbers.
pub const OPEN: u32 = 0;
pub const START: u32 = 1;
pub const POST_READING: u32 = 2;
pub const POST_DAY: u32 = 3;
pub const POST_PRICE: u32 = 4;
pub const POST_SCHEDULE: u32 = 5;
pub const BILL: u32 = 6;
pub const TRUE_UP: u32 = 7;
pub const FINALISE: u32 = 8;
pub const DUE: u32 = 9;
pub const TOTAL: u32 = 10;

pub const CODE: [u8; 8] = *b"POINT-01";

pub const DAY_QUARTERS: u32 = 96;

impl Random {
    pub fn new(seed: u64) -> Random {
        Random(seed)
    }

    fn next(&mut self) -> u64 {
        self.0 ^= self.0 >> 12;
        self.0 ^= self.0 << 25;
        self.0 ^= self.0 >> 27;
        self.0.wrapping_mul(0x2545_F491_4F6C_DD1D)
    }

    /// One of so many, from 0.
    pub fn below(&mut self, n: u64) -> u64 {
        ((u128::from(self.next()) * u128::from(n)) >> 64) as u64
    }

    fn up_to(&mut self, most: u32) -> u32 {
        self.below(u64::from(most) + 1) as u32
    }

    pub fn one_in(&mut self, n: u64) -> bool {
        self.below(n) == 0
    }

    fn of<T: Copy>(&mut self, items: &[T]) -> T {
        items[self.below(items.len() as u64) as usize]
    }

    /// A number up to `most`: often small, often at the limit or at nothing, and where `damaged`
    /// also past it.
    fn quantity(&mut self, most: u32, damaged: bool) -> u32 {
        match self.below(8) {
            0 => 0,
            1 => most,
            2 => self.up_to(most / 100),
            3 if damaged => most + 1 + self.up_to(3) * self.up_to(1_000_000),
            _ => self.up_to(most),
        }
    }

    fn figure(&mut self, (low, high): (i64, i64), damaged: bool) -> i64 {
        match self.below(8) {
            0 => low,
            1 => high,
            2 => low + self.below(1_000.min((high - low) as u64 + 1)) as i64,
            3 if damaged => self.of(&[low - 1, high + 1, i64::MIN / 16, i64::MAX / 16]),
            _ => low + self.below((high - low) as u64 + 1) as i64,
        }
    }

    /// As many figures as there are limits; the places past them hold anything.
    fn figures<const N: usize>(&mut self, limits: &[(i64, i64)], damaged: bool) -> [i64; N] {
        let mut figures = [0; N];
        for (i, figure) in figures.iter_mut().enumerate() {
            *figure = match limits.get(i) {
                Some(limits) => self.figure(*limits, damaged),
                None => self.next() as i64,
            };
        }
        figures
    }

    pub fn rate(&mut self, rate: u32, damaged: bool) -> RateRecord {
        let limits = RATE_LIMITS.get(rate as usize).copied().unwrap_or(&[]);
        RateRecord {
            rate,
            figures: self.figures(limits, damaged),
        }
    }

    pub fn rider(&mut self, rider: u32, damaged: bool) -> RiderRecord {
        let limits = RIDER_LIMITS.get(rider as usize).copied().unwrap_or(&[]);
        RiderRecord {
            rider,
            figures: self.figures(limits, damaged),
        }
    }

    pub fn sheets(&mut self, damage: bool) -> Sheets {
        let rates = if damage && self.one_in(20) { 7 } else { 5 };
        let rate = self.below(rates) as u32;
        let damaged = damage && self.one_in(20);
        let rate = self.rate(rate, damaged);
        // a heap of the dearest energy riders carries its line past the limit
        let heavy = self.one_in(12);
        let many = if heavy {
            16
        } else {
            self.of(&[0, 0, 1, 1, 2, 3, 6])
        };
        let riders = (0..many).map(|i| {
            if heavy {
                return RiderRecord {
                    rider: 0,
                    figures: [i + 1, 100_000, 0, 0, 0, 0],
                };
            }
            let riders = if damage && self.one_in(60) { 5 } else { 3 };
            let rider = self.below(riders) as u32;
            let damaged = damage && self.one_in(60);
            self.rider(rider, damaged)
        });
        let riders = riders.collect();
        Sheets { rate, riders }
    }

    pub fn facts(&mut self, damaged: bool) -> Facts {
        let substation = self.quantity(1_000_000, damaged).max(u32::from(!damaged));
        let contract = match self.below(4) {
            0 => substation,
            1 if damaged => substation.saturating_add(1),
            _ => self.up_to(substation).max(u32::from(!damaged)),
        };
        let peak_kva = self.quantity(1_000_000, damaged);
        let peak = match self.below(4) {
            0 => peak_kva,
            // about where the power factor begins to be charged
            1 => (u64::from(peak_kva) * 9 / 10) as u32 + self.up_to(1).min(peak_kva / 10),
            2 if damaged => peak_kva.saturating_add(1),
            _ => self.up_to(peak_kva),
        };
        Facts {
            contract,
            substation,
            peak,
            peak_kva,
            ratchet_peak: self.quantity(1_000_000, damaged),
        }
    }

    fn hour(&mut self, damaged: bool) -> Hour {
        Hour {
            energy: self.quantity(4_000_000, damaged),
            price: self.quantity(99_999, damaged),
            scheduled: self.quantity(1_000_000, damaged),
        }
    }

    pub fn hours(&mut self, many: usize, damaged: bool) -> Vec<Hour> {
        let full = self.one_in(6);
        let mut hours: Vec<Hour> = (0..many)
            .map(|_| {
                if full {
                    Hour {
                        energy: 4_000_000,
                        price: 99_999,
                        scheduled: 1_000_000,
                    }
                } else {
                    self.hour(false)
                }
            })
            .collect();
        if damaged && many > 0 {
            let at = self.below(many as u64) as usize;
            hours[at] = self.hour(true);
        }
        hours
    }

    /// Any month, mostly one that can be priced.
    pub fn month(&mut self) -> Month {
        let sheets = self.sheets(true);
        let damaged = self.one_in(20);
        let facts = self.facts(damaged);
        let many = match self.below(8) {
            0 => self.below(4) as usize,
            1 => self.below(745) as usize,
            2 => 672,
            3 => 720,
            4 if self.one_in(4) => 745 + self.below(30) as usize,
            _ => 744,
        };
        let damaged = self.one_in(20);
        let hours = self.hours(many, damaged);
        Month {
            sheets,
            facts,
            hours,
        }
    }

    fn reading(&mut self, most: u32, damaged: bool) -> Reading {
        let kva = self.quantity(most, damaged);
        let kw = match self.below(8) {
            0 => kva,
            1 if damaged => kva.saturating_add(1),
            _ => self.up_to(kva),
        };
        Reading { kw, kva }
    }

    /// A call with any arguments near the book's limits.
    fn any_call(&mut self, run: &Run, months: u32) -> CallRecord {
        let kind = if self.one_in(50) {
            11 + self.up_to(3)
        } else {
            self.below(11) as u32
        };
        let places = match kind {
            START => 33,
            POST_READING => 3_000,
            POST_DAY => 32,
            TOTAL => 16,
            _ => 750,
        };
        let from = self.below(run.readings.len() as u64 + 2) as u32;
        let damaged = self.one_in(4);
        CallRecord {
            kind,
            month: self.up_to(months + 1),
            place: match kind {
                START => 26 + self.up_to(7),
                _ => self.up_to(places),
            },
            first: self.quantity(
                if kind == POST_PRICE {
                    99_999
                } else {
                    1_000_000
                },
                damaged,
            ),
            second: self.quantity(1_000_000, damaged),
            from: if kind == OPEN { self.up_to(2) } else { from },
            count: match kind {
                OPEN => self.up_to(26),
                _ => DAY_QUARTERS + u32::from(self.one_in(30)) - u32::from(self.one_in(30)),
            },
            code: if self.one_in(12) { *b"POINT-02" } else { CODE },
        }
    }

    /// A few months or many, posted in full but now and then for a place, billed, corrected, trued
    /// up and made final, with calls of any kind in between.
    pub fn run(&mut self, months: u32, extra: u64) -> Run {
        let damaged = self.one_in(40);
        let sheets = self.sheets(damaged);
        let most = self.of(&[1_000_000, 40_000, 40_000]);
        let readings = (0..20 * DAY_QUARTERS).map(|i| {
            // one day of the twenty has a damaged reading
            let damaged = i / DAY_QUARTERS == 7 && self.one_in(40);
            self.reading(most, damaged)
        });
        let readings = readings.collect();
        let carried = (0..26).map(|i| {
            let damaged = i == 25;
            self.quantity(most, damaged)
        });
        let carried = carried.collect();
        let mut run = Run {
            sheets,
            months: self.of(&[months, months, months + 1, months - 1]),
            entries: (14 * months + self.up_to(20)) as usize,
            carried,
            readings,
            calls: Vec::new(),
        };
        let mut calls = Vec::new();
        let call = |kind, month, place| CallRecord {
            kind,
            month,
            place,
            ..CallRecord::default()
        };
        if self.one_in(4) {
            calls.push(self.any_call(&run, months));
        }
        let contract = 1 + self.up_to(999_999);
        calls.push(CallRecord {
            first: contract,
            second: contract + self.up_to(1_000_000 - contract),
            count: self.up_to(24),
            code: CODE,
            ..call(OPEN, 0, 0)
        });
        for month in 1..=months {
            let days = 28 + self.up_to(3);
            calls.push(call(START, 0, days));
            // a month that cannot be billed holds up those after it
            let missing = self.one_in(6 * u64::from(months));
            for day in 0..days {
                if missing && self.one_in(40) {
                    continue;
                }
                calls.push(CallRecord {
                    from: DAY_QUARTERS * self.up_to(19),
                    count: DAY_QUARTERS,
                    code: CODE,
                    ..call(POST_DAY, month, day)
                });
            }
            for hour in 0..24 * days {
                if missing && self.one_in(400) {
                    continue;
                }
                calls.push(CallRecord {
                    first: self.quantity(99_999, false),
                    ..call(POST_PRICE, month, hour)
                });
                if self.one_in(3) {
                    calls.push(CallRecord {
                        first: self.quantity(1_000_000, false),
                        ..call(POST_SCHEDULE, month, hour)
                    });
                }
            }
            for kind in [BILL, DUE, TRUE_UP] {
                if !self.one_in(10) {
                    calls.push(call(kind, month, 0));
                }
            }
            for _ in 0..extra {
                calls.push(self.any_call(&run, months));
            }
            let earlier = 1 + self.up_to(month - 1);
            for kind in [DUE, TRUE_UP, DUE] {
                calls.push(call(kind, earlier, 0));
            }
            calls.push(call(TOTAL, earlier, self.up_to(15)));
            if self.one_in(2) {
                calls.push(call(FINALISE, earlier, 0));
            }
        }
        run.calls = calls;
        run
    }

    /// A short run of calls of any kind.
    pub fn chaos(&mut self) -> Run {
        let mut run = self.run(2, 0);
        run.calls.clear();
        run.calls = (0..60).map(|_| self.any_call(&run, 2)).collect();
        run
    }
}
