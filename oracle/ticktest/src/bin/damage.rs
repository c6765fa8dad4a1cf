//! Random and damaged circuits: the proved functions against document 01's words, byte for byte.

use std::collections::BTreeMap;
use std::process::ExitCode;

use reading::Rng;
use ticktest::law::Slip;
use ticktest::{all_same, law, linked, made};

const RUNS: usize = 120_000;

fn main() -> ExitCode {
    let arguments: Vec<String> = std::env::args().skip(1).collect();
    let words: Vec<&str> = arguments.iter().map(String::as_str).collect();
    let slip = match words[..] {
        [] => Slip::None,
        ["--wrong", "order"] => Slip::Order,
        ["--wrong", "own"] => Slip::Own,
        ["--wrong", "wide"] => Slip::Wide,
        _ => {
            eprintln!("usage: damage [--wrong order|own|wide]");
            return ExitCode::from(2);
        }
    };
    let mut rng = Rng::new(5);
    let mut seen: BTreeMap<u32, usize> = BTreeMap::new();
    for run in 0..RUNS {
        let mut stored = made::circuit(&mut rng);
        // A third of the circuits are left whole, a third get each damage alone, a third each pair.
        let damages = match run % 3 {
            0 => Vec::new(),
            1 => vec![run / 3 % made::DAMAGES],
            _ => vec![
                run / 3 % made::DAMAGES,
                run / 3 / made::DAMAGES % made::DAMAGES,
            ],
        };
        for which in &damages {
            made::damage(&mut rng, &mut stored, *which);
        }
        let before = stored.clone();
        let (row, mut ours) = made::lent(&mut rng, &stored);
        let mut theirs = ours.clone();
        let table = ours.values.clone();
        let (a, b) = (
            linked::tick(&stored, &row, &mut ours),
            law::tick(&stored, &row, &mut theirs, slip),
        );
        let checks = (
            linked::check(&stored),
            if law::is_circuit(&stored, slip) {
                0
            } else {
                17
            },
        );
        let verdicts = (
            linked::validate(&stored, &table),
            law::validate(&stored, &table, slip),
        );
        let kept = before.nums == stored.nums
            && before.wires == stored.wires
            && all_same(&before.biases, &stored.biases)
            && all_same(&before.coefs, &stored.coefs);
        *seen.entry(a.number).or_default() += 1;
        if a != b || ours != theirs || checks.0 != checks.1 || verdicts.0 != verdicts.1 || !kept {
            println!(
                "run {run}, damages {damages:?}: tick {a:?} and {b:?}, same storage {}, checks {checks:?}, validate {verdicts:?}",
                ours == theirs
            );
            return ExitCode::FAILURE;
        }
    }
    println!("ticktest: {RUNS} random and damaged circuits agree; answers by number {seen:?}");
    if [0, 11, 12, 13, 14, 15, 16, 17, 18]
        .iter()
        .all(|number| seen.contains_key(number))
    {
        ExitCode::SUCCESS
    } else {
        println!("ticktest: a refusal was never met");
        ExitCode::FAILURE
    }
}
