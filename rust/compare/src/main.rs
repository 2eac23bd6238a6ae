//! Compares the static library with the original Rust files on the same inputs, and stops at the first difference.
//!
//! Each answer is looked at three times: the library's record, the binding's result, and a plain model of document 01, all beside
//! the original's answer. Where document 01 lists an exception, its own rule takes the original's place, and that is counted apart.
mod batch;
mod bench;
mod change_model;
mod changes;
mod desk;
mod expected;
mod grid;
mod items;
mod joined;
mod listing_model;
mod listings;
mod log_model;
mod message;
mod model;
mod names;
mod null;
mod parts;
mod random;
mod read;
mod record;
mod refusals;
mod replays;
mod report;
mod rng;
mod sheets;
mod sweep;
mod tally;
mod text_model;
mod texts;
mod why;
mod write;

use bench::Bench;
use record::Recorder;
use rng::Rng;
use std::process::exit;
use std::time::{Duration, Instant};

const USAGE: &str = "usage: compare [--seconds N] [--seed N] [--record FILE] [--quick]";

struct Arguments {
    seconds: u64,
    seed: u64,
    record: Option<String>,
    quick: bool,
}

fn main() {
    let arguments = arguments();
    println!("seed {}", arguments.seed);
    let start = Instant::now();
    let recorder = arguments.record.as_ref();
    let mut bench = Bench::new(recorder.map(|_| Recorder::new(arguments.seed)));
    let b = &mut bench;
    step(b, "parts read", parts::read);
    step(b, "parts written", parts::written);
    step(b, "chosen values written", grid::transfers);
    step(b, "routine messages", grid::routines);
    step(b, "groups and cuts", grid::groups);
    step(b, "long groups and names", grid::long_groups);
    step(b, "sizes at their bounds read", grid::sizes);
    step(b, "lengths of up to 300 bytes", grid::lengths);
    step(b, "names of up to 300 bytes", grid::long_names);
    step(b, "names with one fault far inside", grid::far_faults);
    step(b, "names that go bad", grid::bad_names);
    step(b, "numbers and names at bounds", grid::bounds);
    step(b, "null pointers", null::pointers);
    step(b, "what is made of a byte, or of two", items::of_bytes);
    step(b, "trouble codes and their fields", items::trouble_codes);
    step(b, "payloads", items::payloads);
    step(b, "names of 4 and 5 chosen bytes", sweep::names);
    step(b, "trouble-code numbers", sweep::numbers);
    step(b, "requests for the desk", desk::requests);
    step(b, "words of refusals", refusals::words);
    step(b, "sheets of records", sheets::sheets);
    step(b, "logs of up to 5 chosen records", replays::short_logs);
    step(b, "every record after each state", replays::every_record);
    step(b, "long logs", replays::long_logs);
    step(b, "batches of short messages", batch::short);
    step(b, "batches at their bounds", batch::bounds);
    step(b, "joined requests of every kind", joined::every_kind);
    step(b, "joined requests at their bounds", joined::bounds);
    step(b, "negative answers", message::negatives);
    step(b, "whole messages of every sort", message::chosen);
    step(b, "whole messages written", message::written);
    step(b, "heads of listings", listings::heads);
    step(b, "listings of up to 4 records", listings::short_listings);
    step(b, "marks of records handed over", listings::marks);
    step(b, "indexes that are another's", listings::other_indexes);
    step(b, "long listings", listings::long_listings);
    step(b, "codes as text", texts::codes);
    step(b, "texts that are no code", texts::code_faults);
    step(b, "listings as text", texts::listings);
    step(b, "texts that are no listing", texts::listing_faults);
    step(b, "changes in up to 3 records", changes::short);
    step(b, "listings that are not compared", changes::refused);
    step(b, "listings with a code twice", changes::repeated);
    step(b, "changes in long listings", changes::long);
    if !arguments.quick {
        step(b, "all messages of up to 3 bytes", sweep::short_messages);
        step(b, "messages of 4 to 7 chosen bytes", sweep::chosen_messages);
    }
    let end = start + Duration::from_secs(arguments.seconds);
    step(b, "random", |b| random_rounds(b, arguments.seed, end));
    println!();
    bench.tally.print();
    println!("\nNo difference, in {} s.", start.elapsed().as_secs());
    if let (Some(path), Some(recorder)) = (arguments.record, bench.recorder) {
        save(&path, &recorder);
    }
}

/// Writes the list.
fn save(path: &str, recorder: &Recorder) {
    if let Err(error) = std::fs::write(path, recorder.text()) {
        eprintln!("{path}: {error}");
        exit(2)
    }
    let count = tally::grouped(recorder.count() as u64);
    println!("{count} answers of the original are recorded in {path}.");
}

/// At least one round, and more until the time is over; the first alone is recorded.
fn random_rounds(bench: &mut Bench, seed: u64, end: Instant) {
    // all but the first are drawn by numbers of their own, so that the recorded answers stay as they are
    let (mut rng, mut logs) = (Rng::new(seed), Rng::new(!seed));
    let mut batches = Rng::new(seed.rotate_left(32));
    let mut joined = Rng::new(!seed.rotate_left(32));
    let mut messages = Rng::new(seed ^ 0x7F);
    let mut listed = Rng::new(seed.rotate_left(32) ^ 9);
    let mut lines = Rng::new(seed.rotate_left(32) ^ 12);
    let mut changed = Rng::new(seed.rotate_left(32) ^ 11);
    let mut parts = Rng::new(seed.rotate_left(32) ^ 30);
    loop {
        random::round(bench, &mut rng);
        replays::round(bench, &mut logs);
        batch::round(bench, &mut batches);
        joined::round(bench, &mut joined);
        message::round(bench, &mut messages);
        listings::round(bench, &mut listed);
        texts::round(bench, &mut lines);
        changes::round(bench, &mut changed);
        parts::round(bench, &mut parts);
        if let Some(recorder) = &mut bench.recorder {
            recorder.end();
        }
        if Instant::now() >= end {
            return;
        }
    }
}

/// Runs one part and says how much it compared and how long that took.
fn step(bench: &mut Bench, what: &str, part: impl FnOnce(&mut Bench)) {
    let (before, start) = (bench.tally.all(), Instant::now());
    part(bench);
    bench.end_part();
    let count = tally::grouped(bench.tally.all() - before);
    let seconds = start.elapsed().as_secs_f64();
    println!("{what:<34}{count:>16} answers compared in {seconds:5.1} s");
}

fn arguments() -> Arguments {
    let mut arguments = Arguments {
        seconds: 60,
        seed: 1,
        record: None,
        quick: false,
    };
    let mut given = std::env::args().skip(1);
    while let Some(name) = given.next() {
        match name.as_str() {
            "--seconds" => arguments.seconds = number(given.next()),
            "--seed" => arguments.seed = number(given.next()),
            "--record" => arguments.record = Some(given.next().unwrap_or_else(|| usage())),
            "--quick" => arguments.quick = true,
            _ => usage(),
        }
    }
    // a list has answers of every part
    if arguments.quick && arguments.record.is_some() {
        usage()
    }
    arguments
}

fn number(word: Option<String>) -> u64 {
    let number = word.and_then(|word| word.parse().ok());
    number.unwrap_or_else(|| usage())
}

fn usage() -> ! {
    eprintln!("{USAGE}");
    exit(2)
}
