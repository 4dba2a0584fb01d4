//! Makes calls on both sides until they differ or the time is over.
//!
//!     check [--seed N] [--seconds N] [--broken NAME] [--names]
use crosscheck::checks::{
    calls, colours, damaged, fences, first, interleaves, large, limits, listings, lists, none, ops, orders, records, room, words, writer, Check,
};
use crosscheck::faults;
use crosscheck::pair::{Checked, Pair};
use crosscheck::random::Random;
use std::process::ExitCode;
use std::time::{Instant, SystemTime};

type Group = (&'static str, fn(&mut Check) -> Checked<()>);

/// Made once, in this order; the one with the most calls is the last.
const ONCE: &[Group] = &[
    ("ops of none", none::run),
    ("lists of words", words::run),
    ("interleaves", interleaves::run),
    ("first pictures given as deltas", first::run),
    ("ops of a step", ops::run),
    ("colours", colours::run),
    ("the outside listings", listings::run),
    ("buffers of wrong lengths", limits::lengths),
    ("states around each limit", limits::states),
    ("every next and end place", limits::places),
    ("files too long", limits::long_file),
    ("things wrong at once: opening", orders::openings),
    ("things wrong at once: opening by words", orders::word_openings),
    ("things wrong at once: opening with colours", orders::colour_openings),
    ("things wrong at once: stepping on", orders::steps_on),
    ("things wrong at once: stepping on by words", orders::word_steps),
    ("things wrong at once: stepping back", orders::steps_back),
    ("things wrong at once: rows", orders::rows),
    ("things wrong at once: the writer", orders::deltas),
    ("each kind of damage", damaged::each_harm),
    ("numbers of a record", records::numbers),
    ("records altered at every byte", records::altered),
    ("records of two lists", lists::run),
    ("BODY and DLTA cut at every byte", damaged::cut_contents),
    ("files cut at every byte", damaged::cut),
    ("every bit of a file changed", damaged::flipped),
    ("one long list of calls", calls::long_list),
    ("room for a record", room::run),
    ("the largest pictures", large::run),
    ("buffers between fences", fences::run),
    ("things wrong at once: opening by a delta", orders::delta_openings),
];

/// Made in turn until the time is over.
const AGAIN: &[Group] = &[
    ("files", damaged::any_film),
    ("deltas", damaged::any_deltas),
    ("known pictures", interleaves::any_film),
    ("known maps", colours::any_film),
    ("lists of calls", calls::list),
    ("written deltas", writer::pictures),
];

/// Rounds that are made however short the time is.
const LEAST_ROUNDS: usize = 600;

/// Every number of the rules' table. 44 is retired: it isn't used again.
const NUMBERS: [u64; 24] = [11, 12, 13, 14, 21, 22, 23, 24, 25, 31, 32, 33, 34, 35, 36, 37, 41, 42, 43, 45, 51, 53, 61, 62];

struct Words {
    seed: u64,
    seconds: u64,
    broken: Option<String>,
}

fn words() -> Result<Words, String> {
    let now = SystemTime::now().duration_since(SystemTime::UNIX_EPOCH).map_or(1, |t| t.as_nanos() as u64);
    let mut words = Words { seed: now % 1_000_000_000, seconds: 40, broken: None };
    let mut args = std::env::args().skip(1);
    while let Some(word) = args.next() {
        let mut value = || args.next().ok_or(format!("{word} wants a value"));
        let number = |text: String| text.parse::<u64>().map_err(|e| format!("{text}: {e}"));
        match word.as_str() {
            "--seed" => words.seed = number(value()?)?,
            "--seconds" => words.seconds = number(value()?)?,
            "--broken" => words.broken = Some(value()?),
            _ => return Err(format!("unknown word {word}")),
        }
    }
    Ok(words)
}

fn main() -> ExitCode {
    if std::env::args().any(|word| word == "--names") {
        faults::NAMES.iter().for_each(|(name, _)| println!("{name}"));
        return ExitCode::SUCCESS;
    }
    match words().and_then(|words| run(&words)) {
        Ok(()) => ExitCode::SUCCESS,
        Err(why) => {
            println!("{why}");
            ExitCode::FAILURE
        }
    }
}

fn run(words: &Words) -> Checked<()> {
    println!("seed {}", words.seed);
    if let Some(name) = &words.broken {
        if !faults::choose(name) {
            return Err(format!("no fault {name}, or built without the feature faults"));
        }
        println!("the plain side is broken: {name}");
    }
    let mut check = Check { pair: Pair::default(), random: Random::new(words.seed) };
    let start = Instant::now();
    for (name, group) in ONCE {
        let before = check.pair.calls;
        group(&mut check).map_err(|e| difference(name, &check, e))?;
        println!("{:>9} calls  {name}", check.pair.calls - before);
    }
    let mut counts = vec![0; AGAIN.len()];
    let mut round = 0;
    while round < LEAST_ROUNDS || start.elapsed().as_secs() < words.seconds {
        let k = round % AGAIN.len();
        let before = check.pair.calls;
        check.random = Random::new(words.seed ^ (round as u64) << 32);
        AGAIN[k].1(&mut check).map_err(|e| difference(&format!("{} (round {round})", AGAIN[k].0), &check, e))?;
        counts[k] += check.pair.calls - before;
        round += 1;
    }
    for ((name, _), count) in AGAIN.iter().zip(counts) {
        println!("{count:>9} calls  {name}");
    }
    report(&check.pair)?;
    println!("{} calls in {} seconds, no difference", check.pair.calls, start.elapsed().as_secs());
    Ok(())
}

fn difference(group: &str, check: &Check, why: String) -> String {
    format!("DIFFERENCE in: {group}, after {} calls\n{why}", check.pair.calls)
}

/// Prints how often each answer came; every refusal must have come.
fn report(pair: &Pair) -> Checked<()> {
    let mut line = String::new();
    let mut last = "";
    for ((call, answer), count) in &pair.answers {
        if *call != last {
            line += &format!("\n  {call}:");
            last = call;
        }
        line += &format!(" {answer} x {count},");
    }
    println!("answers:{line}");
    let missing: Vec<&u64> = NUMBERS.iter().filter(|n| !pair.answers.keys().any(|(_, answer)| answer == *n)).collect();
    if missing.is_empty() {
        Ok(())
    } else {
        Err(format!("no call was refused with {missing:?}"))
    }
}
