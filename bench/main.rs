// Runs plans and whole axes by the proved library and by a plain Rust writing of the same rules, compares what they answer, and times both.
//
// Speeds are in millisteps a tick. A plan has a starting speed S, an acceleration A, a deceleration D and rows of steps and speed.
mod axes;
mod calls;
mod jobs;
mod library;
// The comparison asks more of it.
#[allow(dead_code)]
mod plain;
mod replay;

use std::hint::black_box;
use std::time::{Duration, Instant};

use plain::profile::{self, Profile, Ramp, Row, Smoothing};

#[link(name = "bench", kind = "static")]
extern "C" {
    fn longbed_ramp(
        start: u32,
        accel: u32,
        decel: u32,
        rows: *const u32,
        rows_len: usize,
        out: *mut u64,
        out_len: usize,
    );
    fn longbed_smoothed(
        start: u32,
        accel: u32,
        decel: u32,
        length: u32,
        rows: *const u32,
        rows_len: usize,
        out: *mut u64,
        out_len: usize,
    );
}

struct Plan {
    start: u32,
    accel: u32,
    decel: u32,
    // steps, speed, steps, speed, ..
    rows: Vec<u32>,
}

// The ticks of a plan, and a sum over its advances in which their order counts.
fn run_plan(mut profile: impl Profile, plan: &Plan) -> [u64; 2] {
    let rows: Vec<Row> = plan
        .rows
        .chunks_exact(2)
        .map(|pair| Row {
            steps: pair[0],
            speed: pair[1],
        })
        .collect();
    profile.begin(profile::Plan {
        start: plan.start,
        accel: plan.accel,
        decel: plan.decel,
        rows: &rows,
    });
    let (mut ticks, mut sum) = (0u64, 0u64);
    while !profile.is_done() {
        let advance = profile.tick();
        sum = sum.wrapping_mul(31).wrapping_add(advance as u64);
        ticks += 1;
    }
    [ticks, sum]
}

fn plain(plan: &Plan, length: Option<u32>) -> [u64; 2] {
    match length {
        None => run_plan(Ramp::default(), plan),
        Some(length) => run_plan(Smoothing::new(Ramp::default(), length), plan),
    }
}

fn proved(plan: &Plan, length: Option<u32>) -> [u64; 2] {
    let mut out = [0, 0];
    let (rows, count) = (plan.rows.as_ptr(), plan.rows.len());
    let (start, accel, decel) = (plan.start, plan.accel, plan.decel);
    // Both slices are valid for their lengths, and the call keeps neither.
    unsafe {
        match length {
            None => longbed_ramp(start, accel, decel, rows, count, out.as_mut_ptr(), 2),
            Some(length) => longbed_smoothed(
                start,
                accel,
                decel,
                length,
                rows,
                count,
                out.as_mut_ptr(),
                2,
            ),
        }
    }
    out
}

// The ticks of all plans, and a sum over their sums.
fn run_all(
    plans: &[Plan],
    length: Option<u32>,
    run: fn(&Plan, Option<u32>) -> [u64; 2],
) -> [u64; 2] {
    let mut all = [0u64, 0];
    for plan in plans {
        let [ticks, sum] = run(black_box(plan), length);
        all[0] += ticks;
        all[1] = all[1].wrapping_mul(31).wrapping_add(sum);
    }
    all
}

fn timed(plans: &[Plan], length: Option<u32>, run: fn(&Plan, Option<u32>) -> [u64; 2]) -> Duration {
    let begin = Instant::now();
    black_box(run_all(plans, length, run));
    begin.elapsed()
}

fn main() {
    let long = vec![Plan {
        start: 1000,
        accel: 50,
        decel: 50,
        rows: vec![16_000_000, 5000],
    }];
    // Too short to reach the row's speed, and each of a slightly different length and acceleration.
    let short = (0..10_000)
        .map(|i| Plan {
            start: 100,
            accel: 20 + i % 7,
            decel: 15 + i % 11,
            rows: vec![40 + i % 5, 5000],
        })
        .collect();
    // About a third of the ticks speed up or slow down.
    let rows: Vec<u32> = (0..16)
        .flat_map(|i| {
            [
                40_000 + 1000 * i,
                if i % 2 == 0 {
                    1000 + 300 * i
                } else {
                    9000 - 400 * i
                },
            ]
        })
        .collect();
    let sixteen = (0..8)
        .map(|i| Plan {
            start: 500,
            accel: 3 + i % 3,
            decel: 5 - i % 4,
            rows: rows.clone(),
        })
        .collect();
    let cases: [(&str, Vec<Plan>); 3] = [
        ("one row, long cruise", long),
        ("10,000 triangles", short),
        ("8 times 16 rows", sixteen),
    ];
    println!("plans                 smoothing      ticks   plain ticks/s  proved ticks/s  times the plain Rust time per tick");
    let mut worst: f64 = 0.0;
    let mut same = true;
    for (name, plans) in &cases {
        for length in [None, Some(1), Some(64)] {
            // The first run of each side warms up and is compared.
            let expected = run_all(plans, length, plain);
            let answered = run_all(plans, length, proved);
            if answered != expected {
                println!("{name}: DIFFERENT: plain {expected:?}, proved {answered:?}");
                same = false;
                continue;
            }
            let (mut best_plain, mut best_proved) = (Duration::MAX, Duration::MAX);
            for _ in 0..5 {
                best_plain = best_plain.min(timed(plans, length, plain));
                best_proved = best_proved.min(timed(plans, length, proved));
            }
            let (plain_s, proved_s) = (best_plain.as_secs_f64(), best_proved.as_secs_f64());
            let ticks = expected[0];
            let ratio = proved_s / plain_s;
            worst = worst.max(ratio);
            let smoothing = match length {
                None => "none".to_string(),
                Some(length) => format!("{length}"),
            };
            println!(
                "{name:<21} {smoothing:>9} {ticks:>10} {:>15.0} {:>15.0}  {ratio:.2}",
                ticks as f64 / plain_s,
                ticks as f64 / proved_s
            );
        }
    }
    println!("worst: {worst:.2} times the plain Rust time per tick");
    let axes = axes::measure();
    if !same || !axes.same {
        std::process::exit(1);
    }
}
