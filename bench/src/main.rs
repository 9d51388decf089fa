//! How long the proved loader takes, against the same in plain Rust.

mod charts;
mod clock;
mod mutations;
// The tables hold more than the harness looks at.
#[allow(dead_code)]
mod plain;
mod proved;
mod random;

use charts::Size;
use random::Random;
use std::collections::BTreeMap;
use std::hint::black_box;
use std::time::Duration;

const EXAMPLE: &[u8] = include_bytes!("../../crates/inspect/data/chart.bin");
const SEED: u64 = 1;
const SMALL_CHARTS: usize = 400;
const MUTATIONS: usize = 12_000;
const RUNS: usize = 15;
const RUN: Duration = Duration::from_millis(40);

struct File {
    name: &'static str,
    bytes: Vec<u8>,
    number: u8,
}

fn files() -> Vec<File> {
    let whole = charts::limits(SEED).write(16_384);
    let cut = whole[..whole.len() - 1].to_vec();
    let file = |name, bytes, number| File { name, bytes, number };
    vec![
        file("the example", EXAMPLE.to_vec(), 0),
        file("at all limits", whole, 0),
        file("at all limits, nests that may end", charts::nests(SEED).write(16_384), 0),
        file("at all limits, one large graph", charts::dense(SEED).write(16_384), 0),
        file("at all limits, last field on a ring", charts::ring_at_end(SEED).write(16_384), 26),
        file("at all limits, last field cut short", cut, 12),
    ]
}

/// How both loaders judge the file; they have to agree.
fn judge(chart: &mut plain::Chart, bytes: &[u8]) -> proved::Outcome {
    let proved = proved::outcome(bytes);
    let plain = match chart.load(bytes) {
        Ok(()) => proved::Outcome { number: 0, layer: 0, place: 0 },
        Err(r) => proved::Outcome { number: r.number, layer: r.layer, place: r.place },
    };
    assert_eq!(proved, plain, "the loaders differ on {bytes:02x?}");
    proved
}

/// Valid charts: small random ones, and those that are timed.
fn seeds(random: &mut Random) -> Vec<Vec<u8>> {
    let mut seeds: Vec<Vec<u8>> = (0..SMALL_CHARTS)
        .map(|_| {
            let size = Size {
                signals: random.below(8),
                states: 3 + random.below(20),
                graphs: 1 + random.below(6),
                transitions: random.below(24),
                suspensions: random.below(4),
            };
            charts::random(random, size).write(0)
        })
        .collect();
    seeds.extend(files().into_iter().filter(|f| f.number == 0).map(|f| f.bytes));
    seeds
}

fn compare() {
    let mut random = Random::new(SEED);
    let mut chart = plain::Chart::new();
    for file in files() {
        let outcome = judge(&mut chart, &file.bytes);
        assert_eq!(outcome.number, file.number, "{}: {outcome:?}", file.name);
        let sizes = (chart.signals.len(), chart.states.len(), chart.graphs.len(), chart.transitions.len());
        if file.number == 0 && file.name.starts_with("at all limits") {
            assert_eq!(sizes, (128, 256, 128, 512), "{}", file.name);
        }
    }
    for n in 1..=12 {
        let deep = judge(&mut chart, &charts::tower(n, 1).write(0));
        assert_eq!(deep.number, if n <= 8 { 0 } else { 22 }, "depth {n}");
        let stacked = judge(&mut chart, &charts::tower(1, n).write(0));
        assert_eq!(stacked.number, if n <= 8 { 0 } else { 25 }, "{n} values");
    }
    let seeds = seeds(&mut random);
    for seed in &seeds {
        assert_eq!(judge(&mut chart, seed).number, 0, "a chart is refused: {seed:02x?}");
    }
    let mut numbers = BTreeMap::new();
    for n in 0..MUTATIONS {
        let seed = if n % 8 == 0 {
            &seeds[SMALL_CHARTS + n / 8 % (seeds.len() - SMALL_CHARTS)]
        } else {
            &seeds[n % SMALL_CHARTS]
        };
        let bytes = mutations::mutate(&mut random, seed);
        *numbers.entry(judge(&mut chart, &bytes).number).or_insert(0) += 1;
    }
    assert_eq!(numbers.len(), 12, "some outcome never comes: {numbers:?}");
    println!("Both loaders agree on {} charts and {MUTATIONS} mutations of them:", seeds.len());
    let told: Vec<String> = numbers.iter().map(|(number, count)| format!("{number}: {count}")).collect();
    println!("{}\n", told.join(", "));
}

fn plain_loads(bytes: &[u8], times: u32) -> u64 {
    let mut chart = plain::Chart::new();
    let mut count = 0;
    for _ in 0..times {
        count += u64::from(chart.load(black_box(bytes)).is_ok());
        black_box(&chart);
    }
    count
}

fn time(loads: fn(&[u8], u32) -> u64, bytes: &[u8], times: u32) -> f64 {
    let start = clock::now();
    black_box(loads(black_box(bytes), times));
    (clock::now() - start).as_secs_f64() * 1e6 / f64::from(times)
}

fn median(mut figures: Vec<f64>) -> f64 {
    figures.sort_by(f64::total_cmp);
    figures[figures.len() / 2]
}

fn measure(file: &File) {
    let once = time(proved::loads, &file.bytes, 100);
    let times = (RUN.as_secs_f64() * 1e6 / once).max(1.0) as u32;
    let mut proved = Vec::new();
    let mut plain = Vec::new();
    for _ in 0..RUNS {
        proved.push(time(proved::loads, &file.bytes, times));
        plain.push(time(plain_loads, &file.bytes, times));
    }
    let (proved, plain) = (median(proved), median(plain));
    println!(
        "{:36} {:>6} {:>6} {:>9.1} {:>9.1} {:>6.2}",
        file.name,
        file.bytes.len(),
        file.number,
        proved,
        plain,
        proved / plain
    );
}

fn main() {
    compare();
    println!("Microseconds for one load, median of {RUNS} runs:\n");
    println!("{:36} {:>6} {:>6} {:>9} {:>9} {:>6}", "file", "bytes", "number", "proved", "plain", "ratio");
    for file in files() {
        measure(&file);
    }
}
