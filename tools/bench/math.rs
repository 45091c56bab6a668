//! How fast is the proved mathematics beside libm?
//!
//! Both are C functions, called one by one through a pointer that the
//! compiler cannot see through. So neither is inlined, and both pay the same
//! call. Rounds of all functions alternate, and the best round of each counts:
//! what else the machine does can only make a round slower.
//!
//! Throughput: calls that do not wait for each other. Results go to memory; a
//! running sum would have to wait for the call before.
//! Latency: each argument waits for the result before. The cost of that chain
//! is measured with a function that does nothing, and taken off.

#[path = "../math/random.rs"]
mod random;

use random::Random;
use std::hint::black_box;
use std::time::Instant;

const CALLS: usize = 4096;
const ROUNDS: usize = 400;

// What f64::exp, f64::ln and f64::ln_1p call.
unsafe extern "C" {
    safe fn exp(x: f64) -> f64;
    safe fn log(x: f64) -> f64;
    safe fn log1p(x: f64) -> f64;
}

#[inline(never)]
extern "C" fn nothing(x: f64) -> f64 {
    x
}

type Call = extern "C" fn(f64) -> f64;

#[derive(Clone, Copy)]
struct Time {
    throughput: f64,
    latency: f64,
}

struct Race {
    name: &'static str,
    arguments: Vec<f64>,
    /// Nothing, libm, ours.
    calls: [Call; 3],
    best: [Time; 3],
    /// The largest ratio to libm that passes.
    target: Option<Time>,
}

impl Race {
    fn new(
        name: &'static str,
        libm: Call,
        ours: Call,
        target: Option<Time>,
        argument: impl FnMut() -> f64,
    ) -> Race {
        let slow = Time {
            throughput: f64::INFINITY,
            latency: f64::INFINITY,
        };
        Race {
            name,
            arguments: std::iter::repeat_with(argument).take(CALLS).collect(),
            calls: [nothing, libm, ours],
            best: [slow; 3],
            target,
        }
    }

    fn round(&mut self, results: &mut [f64]) {
        for (call, best) in self.calls.iter().zip(&mut self.best) {
            let call = black_box(*call);
            let time = nanoseconds(|| throughput(call, &self.arguments, results));
            best.throughput = best.throughput.min(time);
            let time = nanoseconds(|| latency(call, &self.arguments));
            best.latency = best.latency.min(time);
        }
    }

    /// Print both measures. Gives the number of targets that are missed.
    fn report(&self) -> usize {
        let [chain, libm, ours] = self.best;
        let target = self.target;
        line(
            self.name,
            "throughput",
            libm.throughput,
            ours.throughput,
            target.map(|t| t.throughput),
        ) + line(
            self.name,
            "latency",
            libm.latency - chain.latency,
            ours.latency - chain.latency,
            target.map(|t| t.latency),
        )
    }
}

fn line(name: &str, measure: &str, libm: f64, ours: f64, target: Option<f64>) -> usize {
    let ratio = ours / libm;
    let missed = target.is_some_and(|most| ratio > most);
    let verdict = match target {
        None => String::from("none"),
        Some(most) => format!("{most:.2}  {}", if missed { "FAIL" } else { "PASS" }),
    };
    println!("{name:<8}  {measure:<10}  {libm:8.2}  {ours:8.2}  {ratio:5.2}  {verdict}");
    usize::from(missed)
}

/// What one call of many takes.
fn nanoseconds(calls: impl FnOnce()) -> f64 {
    let begun = Instant::now();
    calls();
    begun.elapsed().as_nanos() as f64 / CALLS as f64
}

#[inline(never)]
fn throughput(call: Call, arguments: &[f64], results: &mut [f64]) {
    for (result, argument) in results.iter_mut().zip(arguments) {
        *result = call(*argument);
    }
    black_box(results);
}

#[inline(never)]
fn latency(call: Call, arguments: &[f64]) {
    // Takes no bit of the last result, and the compiler does not know.
    let none = black_box(0);
    let mut last = 0.0f64;
    for argument in arguments {
        last = call(f64::from_bits(argument.to_bits() ^ (last.to_bits() & none)));
    }
    black_box(last);
}

fn main() {
    let mut random = Random(1);
    let mut races = [
        Race::new(
            "exp",
            exp,
            causeylark::c::causeylark_exp,
            Some(Time {
                throughput: 2.0,
                latency: 1.5,
            }),
            || random.between(-40.0, 0.0),
        ),
        Race::new(
            "ln_1p",
            log1p,
            causeylark::c::causeylark_ln_1p,
            Some(Time {
                throughput: 1.0,
                latency: 1.0,
            }),
            || random.between(0.0, 1.0),
        ),
        // 1e-9 to 1, evenly over the exponents.
        Race::new("ln", log, causeylark::c::causeylark_ln, None, || {
            10f64.powf(random.between(-9.0, 0.0))
        }),
    ];
    let mut results = vec![0.0; CALLS];
    for _ in 0..ROUNDS {
        for race in &mut races {
            race.round(&mut results);
        }
    }
    println!("function  measure     libm, ns  ours, ns  ratio  target");
    let missed: usize = races.iter().map(Race::report).sum();
    println!("bench: {missed} target(s) missed");
    if missed > 0 {
        std::process::exit(1);
    }
}
