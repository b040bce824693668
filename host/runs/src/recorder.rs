//! The recorder: answers of each oracle to a text, and back.

use crate::args::Args;
use crate::record_model;
use crate::records::{Writer, HEADING, SOURCES};
use crate::replay::replay;
use crate::rng::Rng;
use std::process::exit;

#[cfg(leveldb)]
fn leveldb_cases(writer: &mut Writer, rng: &mut Rng) {
    writer.line(&format!("\n{HEADING} of LevelDB 1.23"));
    for case in 0..60 {
        crate::record_leveldb::case(writer, rng, case);
    }
}

#[cfg(not(leveldb))]
fn leveldb_cases(_: &mut Writer, _: &mut Rng) {
    println!("leveldb: SKIPPED, it was not there when this was built (libleveldb-dev)");
}

fn say(counts: [usize; 5]) {
    for (name, count) in SOURCES.iter().zip(counts) {
        println!("    {name}: {count} answers");
    }
}

fn read(file: &str) -> String {
    std::fs::read_to_string(file).unwrap_or_default()
}

/// The part of a text that is written by hand: all above the recorded answers.
fn by_hand(text: &str) -> String {
    let lines = text.lines().take_while(|line| !line.starts_with(HEADING));
    let above: Vec<&str> = lines.collect();
    above.join("\n").trim_end().into()
}

/// Records, or replays. `crate_cases` adds the crate's answers.
pub fn main(note: &str, crate_cases: impl FnOnce(&mut Writer, &mut Rng)) {
    let args = Args::new();
    if let Some(file) = args.text("--replay") {
        match replay(&read(file)) {
            Ok(counts) => {
                println!("{file}: every answer holds");
                say(counts);
            }
            Err(words) => {
                println!("{file}: {words}");
                exit(1);
            }
        }
        return;
    }
    let Some(file) = std::env::args().nth(1).filter(|word| !word.starts_with("--")) else {
        eprintln!("usage: record FILE [--seed N], or record --replay FILE");
        exit(2);
    };
    let seed = args.seed();
    println!("seed {seed}");
    let (mut writer, mut rng) = (Writer::default(), Rng::new(seed));
    writer.line(&format!("{HEADING} of the model"));
    for _ in 0..60 {
        record_model::case(&mut writer, &mut rng);
    }
    if !note.is_empty() {
        println!("{note}");
    }
    crate_cases(&mut writer, &mut rng);
    leveldb_cases(&mut writer, &mut rng);
    let (recorded, counts) = writer.finish();
    let mut text = by_hand(&read(&file));
    if !text.is_empty() {
        text += "\n\n";
    }
    text += &recorded;
    if let Err(error) = std::fs::write(&file, &text) {
        eprintln!("{file}: {error}");
        exit(1);
    }
    println!("{file}: {} bytes", text.len());
    say(counts);
    match replay(&text) {
        Ok(_) => println!("the library replays every answer"),
        Err(words) => {
            println!("{words}");
            exit(1);
        }
    }
}
