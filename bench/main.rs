//! The library compared with plain Rust and measured against it. `bench/run` builds and runs this.

mod compare;
mod library;
mod measure;
mod plain;
mod plain_side;
mod random;
mod records;

use std::process::ExitCode;

// Moves all code behind it, since where a loop lies in memory can change its time by half.
std::arch::global_asm!(concat!(
    ".section .text.place, \"axR\", @progbits\n.skip ",
    env!("BENCH_PLACE"),
    "\n.previous"
));

fn main() -> ExitCode {
    let arguments: Vec<String> = std::env::args().skip(1).collect();
    let words: Vec<&str> = arguments.iter().map(String::as_str).collect();
    match words[..] {
        ["compare"] => {
            if compare::compare() > 0 {
                return ExitCode::FAILURE;
            }
        }
        ["measure"] => measure::measure(),
        ["list"] => measure::list(),
        ["perform", side, number, with] => {
            let Ok(number) = number.parse() else {
                return ExitCode::FAILURE;
            };
            measure::perform(side, number, with == "with");
        }
        _ => {
            eprintln!("usage: bench compare | measure | list | perform SIDE NUMBER with|without");
            return ExitCode::FAILURE;
        }
    }
    ExitCode::SUCCESS
}
