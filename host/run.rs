//! What every program here is asked for: a comparison, under a seed, or a timing.

use crate::rng::Random;

pub fn run(compare: fn(&mut Random), speed: fn(&mut Random)) {
    const SEED: u64 = 2_026;
    let arguments: Vec<String> = std::env::args().skip(1).collect();
    let (job, seed) = match arguments.iter().map(String::as_str).collect::<Vec<_>>()[..] {
        [] => (compare, SEED),
        ["--speed"] => (speed, SEED),
        [seed] if seed.parse::<u64>().is_ok() => (compare, seed.parse().unwrap()),
        _ => {
            eprintln!("usage: [SEED | --speed]");
            std::process::exit(2);
        }
    };
    println!("seed {seed}");
    job(&mut Random(seed));
}
