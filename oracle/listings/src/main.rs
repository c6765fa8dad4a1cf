//! `listings [--wrong SLIP] PROGRAM [WORD..]`: the program's output on inputs of every sort against the listing that document 01's words give, byte
//! for byte, with exit status 0, in time. `--wrong` makes a slip in the listing: it must then fail. Exit 1: a difference; 2: bad usage, or
//! the program could not be run.

use std::collections::BTreeMap;
use std::process::ExitCode;
use std::sync::atomic::{AtomicBool, AtomicUsize, Ordering};
use std::thread;
use std::time::Instant;

use listings::inputs::{Input, fixed, random_input};
use listings::run::{Ran, run};
use reading::listing::{SLIPS, Slip, listing_with};
use reading::vectors::hexadecimals;

const RANDOM: usize = 6_000;
const THREADS: usize = 2;

/// How listings end; each must be met.
const ENDINGS: [&str; 12] = [
    "bad record",
    "refused 1",
    "refused 2",
    "refused 3",
    "refused 4",
    "refused 5",
    "refused 6",
    "refused 7",
    "refused 8",
    "refused 11",
    "refused 15",
    "listed",
];

/// Why a comparison stops.
enum Stop {
    Differs(String),
    CannotRun(String),
}

/// What was compared: how often each ending was met, and how many ticks were listed.
#[derive(Default)]
struct Tally {
    endings: BTreeMap<String, usize>,
    lines: usize,
}

fn main() -> ExitCode {
    let mut command: Vec<String> = std::env::args().skip(1).collect();
    let mut slip = Some(Slip::None);
    if command.len() > 1 && command[0] == "--wrong" {
        let named = SLIPS.iter().find(|slip| slip.0 == command[1]);
        slip = named.map(|slip| slip.1);
        command.drain(..2);
    }
    let (Some(slip), Some(program)) = (slip, command.first()) else {
        let names: Vec<&str> = SLIPS.iter().map(|slip| slip.0).collect();
        eprintln!(
            "usage: listings [--wrong {}] PROGRAM [WORD..]",
            names.join("|")
        );
        return ExitCode::from(2);
    };
    let start = Instant::now();
    match compare(&command, slip) {
        Ok(text) => {
            println!(
                "listings: {text}, {:.1} seconds",
                start.elapsed().as_secs_f32()
            );
            ExitCode::SUCCESS
        }
        Err(Stop::Differs(text)) => {
            println!("listings: {text}");
            ExitCode::FAILURE
        }
        Err(Stop::CannotRun(text)) => {
            eprintln!("listings: {program}: {text}");
            ExitCode::from(2)
        }
    }
}

fn compare(command: &[String], slip: Slip) -> Result<String, Stop> {
    let fixed = fixed();
    let next = AtomicUsize::new(0);
    let stopped = AtomicBool::new(false);
    let tallies: Vec<Result<Tally, Stop>> = thread::scope(|scope| {
        let worker = || {
            let tally = work(command, slip, &fixed, &next, &stopped);
            stopped.fetch_or(tally.is_err(), Ordering::Relaxed);
            tally
        };
        let threads: Vec<_> = (0..THREADS).map(|_| scope.spawn(worker)).collect();
        let join = |thread: thread::ScopedJoinHandle<_>| thread.join().expect("no thread panics");
        threads.into_iter().map(join).collect()
    });
    let mut total = Tally::default();
    for tally in tallies {
        total.add(tally?);
    }
    if let Some(ending) = ENDINGS
        .iter()
        .find(|name| !total.endings.contains_key(**name))
    {
        return Err(Stop::Differs(format!("no listing ended with '{ending}'")));
    }
    Ok(format!(
        "{} inputs of the fixed list and {RANDOM} random ones listed as document 01 has it, {} lines; endings {:?}",
        fixed.len(),
        total.lines,
        total.endings
    ))
}

/// Takes input after input until there is none, or another thread has stopped.
fn work(
    command: &[String],
    slip: Slip,
    fixed: &[Input],
    next: &AtomicUsize,
    stopped: &AtomicBool,
) -> Result<Tally, Stop> {
    let mut tally = Tally::default();
    while !stopped.load(Ordering::Relaxed) {
        let number = next.fetch_add(1, Ordering::Relaxed);
        if number >= fixed.len() + RANDOM {
            break;
        }
        match fixed.get(number) {
            Some(input) => tally.count(&one(command, slip, input)?),
            None => tally.count(&one(command, slip, &random_input(number - fixed.len()))?),
        }
    }
    Ok(tally)
}

/// One input; answers its listing.
fn one(command: &[String], slip: Slip, input: &Input) -> Result<String, Stop> {
    let due = listing_with(slip, &input.bytes);
    let ran = run(command, input).map_err(|error| Stop::CannotRun(error.to_string()))?;
    if ran.output == due.as_bytes() && ran.status == Some(0) {
        Ok(due)
    } else {
        Err(Stop::Differs(difference(input, &due, &ran)))
    }
}

/// The input and both outputs, the outputs from the first line that differs.
fn difference(input: &Input, due: &str, ran: &Ran) -> String {
    let given = String::from_utf8_lossy(&ran.output);
    let (mut due_lines, mut given_lines) = (due.lines(), given.lines());
    let mut same = 0;
    let (due_line, given_line) = loop {
        match (due_lines.next(), given_lines.next()) {
            (Some(one), Some(two)) if one == two => same += 1,
            lines => break lines,
        }
    };
    let shown = &input.bytes[..input.bytes.len().min(1_000)];
    format!(
        "{}, {} bytes{}: {}\nexit status {:?}, {} bytes printed, {} due; after {same} lines alike\nprinted: {given_line:?}\ndue:     {due_line:?}",
        input.name,
        input.bytes.len(),
        if input.in_pieces { " in pieces" } else { "" },
        hexadecimals(shown).join(" "),
        ran.status,
        ran.output.len(),
        due.len()
    )
}

impl Tally {
    fn count(&mut self, listing: &str) {
        let last = listing.lines().last().unwrap_or("");
        let ending = match last.split_once(" at ") {
            Some((refused, _)) => refused,
            None if last == "bad record" => last,
            None => "listed",
        };
        *self.endings.entry(ending.to_string()).or_default() += 1;
        self.lines += listing.lines().count();
    }

    fn add(&mut self, other: Self) {
        for (ending, count) in other.endings {
            *self.endings.entry(ending).or_default() += count;
        }
        self.lines += other.lines;
    }
}
