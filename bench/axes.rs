// Whole axes: lists of calls, made by the proved library and by the plain axis, which have to answer alike, and the time that both take.
use std::hint::black_box;
use std::time::{Duration, Instant};

use crate::calls::Call;
use crate::jobs::{jobs, Job};
use crate::{library, replay};

// What came of all jobs.
pub struct Outcome {
    // The most times the plain time.
    pub worst: f64,
    pub same: bool,
}

struct Size {
    ticks: usize,
    others: usize,
    answers: usize,
}

fn size_of(mut calls: &[u8]) -> Size {
    let mut size = Size {
        ticks: 0,
        others: 0,
        answers: 0,
    };
    while !calls.is_empty() {
        let (call, rest) = Call::split(calls);
        size.answers += call.answers();
        match call {
            Call::Ticks(count) => size.ticks += count as usize,
            _ => size.others += 1,
        }
        calls = rest;
    }
    size
}

fn run_plain(job: &Job, out: &mut [i32]) {
    replay::run_calls(job.bed, black_box(&job.list.bytes), out);
}

fn run_proved(job: &Job, out: &mut [i32]) {
    let status = library::run_calls(job.bed, black_box(&job.list.bytes), out);
    assert_eq!(status, 0, "the library made not all calls");
}

fn timed(run: fn(&Job, &mut [i32]), job: &Job, out: &mut [i32]) -> Duration {
    let begin = Instant::now();
    run(job, out);
    let time = begin.elapsed();
    black_box(out);
    time
}

// The best of some times for each, taken by turns, so that what else the machine does falls on both.
fn best_times(job: &Job, plain: &mut [i32], proved: &mut [i32]) -> [f64; 2] {
    let mut best = [Duration::MAX; 2];
    for _ in 0..9 {
        best[0] = best[0].min(timed(run_plain, job, plain));
        best[1] = best[1].min(timed(run_proved, job, proved));
    }
    best.map(|time| time.as_secs_f64())
}

pub fn measure() -> Outcome {
    println!();
    println!("whole axis                            ticks     others  plain million ticks/s  proved million ticks/s  times the plain Rust time");
    let mut outcome = Outcome {
        worst: 0.0,
        same: true,
    };
    for job in jobs() {
        let size = size_of(&job.list.bytes);
        let (mut plain, mut proved) = (vec![0; size.answers], vec![-1; size.answers]);
        run_plain(&job, &mut plain);
        run_proved(&job, &mut proved);
        if plain != proved {
            println!("{}: DIFFERENT", job.name);
            outcome.same = false;
            continue;
        }
        let [plain_s, proved_s] = best_times(&job, &mut plain, &mut proved);
        let ratio = proved_s / plain_s;
        outcome.worst = outcome.worst.max(ratio);
        let rate = |seconds: f64| size.ticks as f64 / seconds / 1e6;
        println!(
            "{:<32} {:>10} {:>10} {:>22.1} {:>23.1}  {ratio:.2}",
            job.name,
            size.ticks,
            size.others,
            rate(plain_s),
            rate(proved_s)
        );
    }
    println!("worst: {:.2} times the plain Rust time", outcome.worst);
    outcome
}
