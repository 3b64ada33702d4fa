//! The program `reference`: see README.md for its commands.

use reference::control::Control;
use reference::coverage::Coverage;
use reference::report::Report;
use reference::runner::{work, External, Form, Seeds};
use reference::seen::Seen;
use reference::slip::Slip;
use reference::{cases, compare, generate, large, listing, slips};
use std::env;
use std::io::{self, BufWriter, Read, Write};
use std::ops::Range;
use std::process::ExitCode;
use std::thread;

/// Room for trees as deep as set text can make them.
const STACK: usize = 256 << 20;
/// Seeds that the gate compares if none are given, and those whose coverage it tests.
const GATE_SEEDS: Seeds =
    Seeds { synrun: 0..5000, host: 0..5000, long: 0..40, print: 0..2000, stat: 0..1000 };
const COVERED_SEEDS: Seeds =
    Seeds { synrun: 0..1000, host: 0..5000, long: 0..40, print: 0..2000, stat: 0..1000 };

const USAGE: &str = "reference                           answer standard input as synrun does
reference host                      answer standard input as a host session
reference print                     answer standard input as synprint does
reference stat                      answer standard input as synstat does
reference compare [PROGRAMS] SEEDS  cases and seeds
reference coverage [SEEDS]          what the seeds reach
reference slips                     every slip must be found
reference gate [PROGRAMS] [SEEDS]   all of these
reference generate FORM SEED        print a seed's input
FORM: synrun, host, long, print or stat. SEEDS: --FORM FROM..TO for each; FROM..TO is synrun, host, print and stat
PROGRAMS: --program PATH, --host-program PATH, --print-program PATH and --stat-program PATH";

fn main() -> ExitCode {
    let arguments: Vec<String> = env::args().skip(1).collect();
    let work = move || match command(&arguments) {
        Ok(status) => status,
        Err(error) => {
            eprintln!("{error}");
            ExitCode::from(2)
        }
    };
    let worker = thread::Builder::new().stack_size(STACK).spawn(work);
    worker.expect("a thread for the work").join().expect("the work ends")
}

fn command(arguments: &[String]) -> io::Result<ExitCode> {
    let words: Vec<&str> = arguments.iter().map(String::as_str).collect();
    match words[..] {
        [] => answer(Form::Synrun),
        ["host"] => answer(Form::Host),
        ["print"] => answer(Form::Print),
        ["stat"] => answer(Form::Stat),
        ["generate", form, seed] => print_input(form, seed),
        ["coverage", ref rest @ ..] => coverage(&Options::read(rest)?),
        ["compare", ref rest @ ..] => compared(&Options::read(rest)?),
        ["slips"] => found_slips(),
        ["gate", ref rest @ ..] => gate(&Options::read(rest)?),
        _ => Err(wrong(USAGE)),
    }
}

fn wrong(message: &str) -> io::Error {
    io::Error::new(io::ErrorKind::InvalidInput, message)
}

/// Programs and seeds given on the command line.
struct Options {
    external: External,
    seeds: Option<Seeds>,
}

impl Options {
    fn read(mut words: &[&str]) -> io::Result<Options> {
        let mut options = Options { external: External::default(), seeds: None };
        loop {
            words = match words {
                [] => return Ok(options),
                ["--program", path, rest @ ..] => {
                    options.external.synrun = Some(path.into());
                    rest
                }
                ["--host-program", path, rest @ ..] => {
                    options.external.host = Some(path.into());
                    rest
                }
                ["--print-program", path, rest @ ..] => {
                    options.external.print = Some(path.into());
                    rest
                }
                ["--stat-program", path, rest @ ..] => {
                    options.external.stat = Some(path.into());
                    rest
                }
                [form, seeds, rest @ ..] if form.starts_with("--") => {
                    options.seeds.get_or_insert_default().put(named(&form[2..])?, range(seeds)?);
                    rest
                }
                [seeds, rest @ ..] => {
                    let given = options.seeds.get_or_insert_default();
                    (given.synrun, given.host) = (range(seeds)?, range(seeds)?);
                    (given.print, given.stat) = (range(seeds)?, range(seeds)?);
                    rest
                }
            }
        }
    }
}

fn named(form: &str) -> io::Result<Form> {
    Form::named(form).ok_or_else(|| wrong(USAGE))
}

/// Seeds as FROM..TO, TO not among them.
fn range(word: &str) -> io::Result<Range<u64>> {
    let (from, to) = word.split_once("..").ok_or_else(|| wrong(USAGE))?;
    let number = |word: &str| word.parse().map_err(|_| wrong(USAGE));
    Ok(number(from)?..number(to)?)
}

fn answer(form: Form) -> io::Result<ExitCode> {
    let mut input = Vec::new();
    io::stdin().read_to_end(&mut input)?;
    let mut out = BufWriter::new(io::stdout().lock());
    work(form, &input, &mut Control::new(Slip::None, Seen::default()), &mut out)?;
    out.flush()?;
    Ok(ExitCode::SUCCESS)
}

fn print_input(form: &str, seed: &str) -> io::Result<ExitCode> {
    let seed = seed.parse().map_err(|_| wrong(USAGE))?;
    io::stdout().write_all(&generate::input(named(form)?, seed))?;
    Ok(ExitCode::SUCCESS)
}

fn compared(options: &Options) -> io::Result<ExitCode> {
    let mut report = Report::default();
    compare::compare_cases(&mut report, &cases::all()?, &options.external);
    compare::compare_cases(&mut report, &large::all(), &options.external);
    compare_seeds(&mut report, &options.seeds.clone().unwrap_or_default(), &options.external);
    Ok(report.end())
}

fn compare_seeds(report: &mut Report, seeds: &Seeds, external: &External) {
    if external.print.is_none() {
        println!("no print program is given: prints are those of the reference only");
    }
    for form in Form::ALL {
        compare::compare_seeds(report, form, seeds.of(form), external);
    }
}

fn coverage(options: &Options) -> io::Result<ExitCode> {
    let mut report = Report::default();
    let coverage = Coverage::of(options.seeds.as_ref().unwrap_or(&COVERED_SEEDS));
    coverage.print();
    coverage.test(&mut report);
    Ok(report.end())
}

fn found_slips() -> io::Result<ExitCode> {
    let mut report = Report::default();
    slips::find_slips(&mut report, &cases::all()?);
    Ok(report.end())
}

fn gate(options: &Options) -> io::Result<ExitCode> {
    let mut report = Report::default();
    let (cases, large) = (cases::all()?, large::all());
    listing::check(&mut report, &cases.iter().chain(&large).collect::<Vec<_>>())?;
    compare::compare_cases(&mut report, &cases, &options.external);
    compare::compare_cases(&mut report, &large, &options.external);
    compare_seeds(&mut report, options.seeds.as_ref().unwrap_or(&GATE_SEEDS), &options.external);
    Coverage::of(&COVERED_SEEDS).test(&mut report);
    slips::find_slips(&mut report, &cases);
    Ok(report.end())
}
