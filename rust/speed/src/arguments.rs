//! What the program was told to do.
use crate::row::{Side, Way};
use std::env::Args;
use std::process::exit;

const USAGE: &str = "usage: speed [--only TEXT] [--rounds N] [--times | --plain]
       speed [--only TEXT] --rows
       speed [--only TEXT] --side original|port --iterations N [--way reading|writing]";

/// What is printed.
#[derive(Clone, Copy, PartialEq, Eq)]
pub enum Print {
    /// A table of ratios.
    Ratios,
    /// The same with nanoseconds beside them.
    Times,
    /// The ratios in lines for a program to read.
    Plain,
    /// The rows' names alone, without timing them.
    Names,
}

pub struct Arguments {
    /// Only the rows whose name contains this text.
    pub only: String,
    pub rounds: u32,
    pub print: Print,
    /// The side that is to run alone, without a clock; then, how often each of its calls is made, and which of them.
    pub side: Option<Side>,
    pub iterations: Option<u64>,
    pub way: Option<Way>,
}

impl Arguments {
    pub fn given() -> Self {
        let mut arguments = Self {
            only: String::new(),
            rounds: 25,
            print: Print::Ratios,
            side: None,
            iterations: None,
            way: None,
        };
        let mut words = std::env::args();
        words.next();
        while let Some(word) = words.next() {
            if arguments.take(&word, &mut words).is_none() {
                usage()
            }
        }
        let alone = arguments.side.is_some();
        let printed = arguments.print != Print::Ratios;
        if alone != arguments.iterations.is_some()
            || arguments.way.is_some() && !alone
            || printed && alone
        {
            usage()
        }
        arguments
    }

    /// Takes an option and its value; answers nothing where it is none of ours.
    fn take(&mut self, word: &str, words: &mut Args) -> Option<()> {
        if let Some(print) = printed(word) {
            let only_one = self.print == Print::Ratios;
            self.print = print;
            return only_one.then_some(());
        }
        let value = words.next()?;
        match (word, value.as_str()) {
            ("--only", _) => self.only = value,
            ("--rounds", _) => self.rounds = value.parse().ok().filter(|n| *n > 0)?,
            ("--iterations", _) => self.iterations = Some(value.parse().ok().filter(|n| *n > 0)?),
            ("--side", "original") => self.side = Some(Side::Original),
            ("--side", "port") => self.side = Some(Side::Port),
            ("--way", "reading") => self.way = Some(Way::Reading),
            ("--way", "writing") => self.way = Some(Way::Writing),
            _ => return None,
        }
        Some(())
    }
}

fn printed(word: &str) -> Option<Print> {
    match word {
        "--times" => Some(Print::Times),
        "--plain" => Some(Print::Plain),
        "--rows" => Some(Print::Names),
        _ => None,
    }
}

fn usage() -> ! {
    eprintln!("{USAGE}");
    exit(2)
}
