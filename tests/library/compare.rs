//! The library's exported functions against `reference.rs`: the same calls to both.
//!
//! usage: compare random CALLS SEED     random calls over all shapes, sound and damaged tables, every refusal
//!        compare shapes SEED           every listed w and m, and the m next to them
//!        compare large SEED            a few calls at n = 65,536 and 65,537
//!        compare bytes FILE..          the calls that a fuzzer's bytes make
mod calls;
mod library;
mod makers;
mod random;
mod reference;
use makers::Refusals;
use random::Random;

fn random(calls: u64, seed: u64) -> Result<Refusals, String> {
    let (mut rng, mut refusals) = (Random::seeded(seed), Refusals::default());
    for call in 0..calls {
        let number = makers::any_call(&mut rng).map_err(|error| format!("{error}\nseed {seed}, call {call}"))?;
        refusals[number as usize] += 1;
    }
    Ok(refusals)
}

fn all_of(calls: fn(&mut Random, &mut Refusals) -> Result<(), String>, seed: u64) -> Result<Refusals, String> {
    let (mut rng, mut refusals) = (Random::seeded(seed), Refusals::default());
    calls(&mut rng, &mut refusals).map_err(|error| format!("{error}\nseed {seed}"))?;
    Ok(refusals)
}

fn bytes(files: &[String]) -> Result<Refusals, String> {
    let mut refusals = Refusals::default();
    for file in files {
        let bytes = std::fs::read(file).map_err(|error| format!("{file}: {error}"))?;
        let number = makers::from_bytes(&bytes).map_err(|error| format!("{error}\nbytes of {file}"))?;
        refusals[number as usize] += 1;
    }
    Ok(refusals)
}

fn main() {
    let words: Vec<String> = std::env::args().skip(1).collect();
    let number = |i: usize| words.get(i).and_then(|word| word.parse::<u64>().ok());
    let (what, outcome) = match (words.first().map(String::as_str), number(1), number(2)) {
        (Some("random"), Some(calls), Some(seed)) => (format!("random calls, seed {seed}"), random(calls, seed)),
        (Some("shapes"), Some(seed), _) => (format!("calls of every shape, seed {seed}"), all_of(makers::shapes, seed)),
        (Some("large"), Some(seed), _) => (format!("large calls, seed {seed}"), all_of(makers::large, seed)),
        (Some("bytes"), _, _) => ("a fuzzer's calls".to_string(), bytes(&words[1..])),
        _ => {
            eprintln!("usage: compare random CALLS SEED | shapes SEED | large SEED | bytes FILE..");
            std::process::exit(2);
        }
    };
    match outcome {
        Ok(refusals) => {
            println!("{what}; by number 0 to 11: {refusals:?}");
            println!("{} passed, 0 failed", refusals.iter().sum::<u64>());
        }
        Err(error) => {
            println!("FAILED: {error}\n1 failed");
            std::process::exit(1);
        }
    }
}
