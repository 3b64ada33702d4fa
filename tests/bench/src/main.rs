//! Runs the proved walks over tokens and the proved loading beside a tree interpreter: that they answer alike, and how long each takes.
//!
//! `bench rows ROUNDS` prints the rows of the table and, last, 'N passed, M failed' of the answers that were compared; `bench proved ROUNDS` the rows
//! of the proved calls alone, and `bench agree` the count alone.

mod agree;
mod lean;
mod loaded;
mod loading;
mod measure;
mod memory;
mod proved;
mod sets;
mod tokens;
mod walks;

use agree::Agreement;
use loaded::Loaded;
use measure::Measure;
use std::env;
use std::ops::Range;
use std::process::ExitCode;
use std::thread;

/// The random sets whose lines are compared.
const SEEDS: Range<u64> = 0..1000;

fn main() -> ExitCode {
    let words: Vec<String> = env::args().skip(1).collect();
    let words: Vec<&str> = words.iter().map(String::as_str).collect();
    match words[..] {
        ["rows", rounds] => in_rounds(rounds, |rounds| {
            let agreement = agreement();
            rows(&Measure { rounds, alone: false });
            told(&agreement)
        }),
        ["proved", rounds] => in_rounds(rounds, |rounds| {
            rows(&Measure { rounds, alone: true });
            ExitCode::SUCCESS
        }),
        ["agree"] => told(&agreement()),
        _ => usage(),
    }
}

fn usage() -> ExitCode {
    eprintln!("bench rows ROUNDS, bench proved ROUNDS or bench agree");
    ExitCode::from(2)
}

fn in_rounds(word: &str, work: impl FnOnce(usize) -> ExitCode) -> ExitCode {
    word.parse().map_or_else(|_| usage(), work)
}

fn rows(measure: &Measure) {
    let world = memory::running();
    let [cutter, brackets, signs] = [sets::CUTTER, sets::BRACKETS, &sets::signs()].map(Loaded::new);
    walks::working(measure, "walk cutter", &cutter, &world);
    walks::working(measure, "walk brackets", &brackets, &world);
    walks::working(measure, "walk signs", &signs, &world);
    walks::check(measure, "check cutter", &cutter);
    walks::check(measure, "check brackets", &brackets);
    walks::check(measure, "check signs", &signs);
    loading::rows(measure);
}

/// Compares the answers. The chain of signs is worked in a thread, with a thread's usual stack.
fn agreement() -> Agreement {
    let work = || {
        let mut agreement = Agreement::default();
        let world = memory::running();
        for text in [sets::EXAMPLE, sets::CUTTER, sets::BRACKETS, &sets::signs(), &sets::full(32)] {
            agreement.set(&Loaded::new(text), &world);
            agreement.text(text.as_bytes());
        }
        agreement.random(SEEDS);
        agreement
    };
    thread::spawn(work).join().expect("the work ends")
}

fn told(agreement: &Agreement) -> ExitCode {
    println!("{} passed, {} failed", agreement.passed, agreement.failed);
    ExitCode::from(u8::from(agreement.failed > 0))
}
