// Compares the proved library with the plain axis on random lists of calls: each call's answer, the steps of every tick, the words of every
// reading. A list is made from a seed.
//
//     compare              the lists of seeds 1 to LISTS
//     compare SEED         the list of one seed
//     compare FIRST COUNT  so many lists from a seed on
mod calls;
mod library;
mod operator;
mod plain;
mod random;
mod tally;

use calls::{Bed, Call};
use operator::Script;
use std::process::ExitCode;
use tally::Tally;

const LISTS: u64 = 30_000;
const ACTS: u32 = 400;
// What the output holds before, so that an answer that is not written shows.
const UNWRITTEN: i32 = i32::MIN;

// A call whose answers differ.
struct Difference {
    // Which call of the list it is, from 1.
    call: usize,
    // In which of its answers, from 1.
    answer: usize,
    text: String,
    // The calls up to it, as a call script.
    script: String,
    plain: Vec<i32>,
    proved: Vec<i32>,
}

// The first difference between what is expected of a list and what was answered.
fn first_difference(script: &Script, proved: &[i32]) -> Option<Difference> {
    let at = script
        .answers
        .iter()
        .zip(proved)
        .position(|(a, b)| a != b)?;
    let mut text = format!("{}\n", script.bed);
    let mut rest = &script.list.bytes[..];
    let mut from = 0;
    for index in 1.. {
        let (call, after) = Call::split(rest);
        text.push_str(&format!("{call}\n"));
        let to = from + call.answers();
        if at < to {
            return Some(Difference {
                call: index,
                answer: at - from + 1,
                text: call.to_string(),
                script: text,
                plain: script.answers[from..to].to_vec(),
                proved: proved[from..to].to_vec(),
            });
        }
        (rest, from) = (after, to);
    }
    None
}

// Up to twenty answers from the one before the first that differs.
fn around(answers: &[i32], answer: usize) -> &[i32] {
    let from = answer.saturating_sub(2);
    &answers[from..answers.len().min(from + 20)]
}

fn report(seed: u64, difference: &Difference) {
    println!(
        "seed {seed}: call {} differs, in its answer {}:",
        difference.call, difference.answer
    );
    println!("  {}", difference.text);
    println!(
        "  plain  .. {:?}",
        around(&difference.plain, difference.answer)
    );
    println!(
        "  proved .. {:?}",
        around(&difference.proved, difference.answer)
    );
    let file = format!("target/bench/{seed}.calls");
    match std::fs::write(&file, &difference.script) {
        Ok(()) => {
            println!("  the calls up to it are in {file}; bench/compare {seed} makes them again")
        }
        Err(error) => println!("  {file}: {error}"),
    }
}

// Whether the list of a seed is answered alike.
fn compare(seed: u64, tally: &mut Tally, proved: &mut Vec<i32>) -> bool {
    let script = operator::script_of(seed, ACTS, tally);
    proved.clear();
    proved.resize(script.answers.len(), UNWRITTEN);
    let status = library::run_calls(script.bed, &script.list.bytes, proved);
    if status != 0 {
        println!("seed {seed}: the library made not all of its calls: {status}");
        return false;
    }
    match first_difference(&script, proved) {
        None => true,
        Some(difference) => {
            report(seed, &difference);
            false
        }
    }
}

// Whether the library refuses what it cannot make by the numbers that it says, and writes nothing: a bed that there is not, bytes that are no
// call, and answers for which there is no room.
fn refuses() -> bool {
    let bed = |drive, profile| Bed {
        drive,
        profile,
        outer: 4,
        inner: 4,
    };
    let cases: [(Bed, &[u8], u8); 6] = [
        (bed(2, 0), &[5], 1),
        (bed(0, 6), &[5], 1),
        (bed(0, 0), &[6], 2),
        (bed(0, 0), &[0, 1], 2),
        (bed(0, 0), &[5], 3),
        (bed(0, 0), &[3, 3, 0], 3),
    ];
    cases.iter().all(|&(bed, calls, number)| {
        let mut out = [UNWRITTEN; 2];
        let status = library::run_calls(bed, calls, &mut out);
        let holds = status == number && out == [UNWRITTEN; 2];
        if !holds {
            println!("{calls:?}: {status} in place of {number}, and {out:?} written");
        }
        holds
    })
}

// The first seed and how many lists to make.
fn seeds() -> Option<(u64, u64)> {
    let numbers: Vec<u64> = std::env::args()
        .skip(1)
        .map(|word| word.parse().ok())
        .collect::<Option<_>>()?;
    match numbers[..] {
        [] => Some((1, LISTS)),
        [seed] => Some((seed, 1)),
        [first, count] => Some((first, count)),
        _ => None,
    }
}

fn main() -> ExitCode {
    let Some((first, count)) = seeds() else {
        eprintln!("compare [SEED | FIRST COUNT]");
        return ExitCode::FAILURE;
    };
    let mut tally = Tally::default();
    let mut proved = Vec::new();
    let different = (first..first + count)
        .filter(|&seed| !compare(seed, &mut tally, &mut proved))
        .count();
    let refuses = refuses();
    tally.print();
    println!(
        "seeds {first} to {}: {different} lists differ",
        first + count - 1
    );
    if different == 0 && refuses {
        ExitCode::SUCCESS
    } else {
        ExitCode::FAILURE
    }
}
