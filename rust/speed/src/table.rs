//! The table that is printed.
use crate::clock::{Best, best_of};
use crate::row::{Row, Way};

pub struct Table {
    pub rounds: u32,
    /// Whether nanoseconds stand beside the ratios.
    pub times: bool,
}

impl Table {
    /// Times every row and prints it at once; the largest ratio comes last.
    pub fn print(&self, rows: &[Row]) {
        self.print_head();
        let mut largest = (0.0, String::new());
        for row in rows {
            let bests = bests(row, self.rounds);
            let [reading, writing] = bests.map(|best| self.cell(best));
            println!("| {} | {} | {reading} | {writing} |", row.what, row.bytes);
            for (way, best) in ["reading", "writing"].into_iter().zip(bests) {
                let ratio = best.map_or(0.0, Best::ratio);
                if ratio > largest.0 {
                    largest = (ratio, format!("{way}, {}", row.what));
                }
            }
        }
        let (ratio, which) = largest;
        println!("\nThe largest ratio is {ratio:.2} ({which}).");
    }

    fn print_head(&self) {
        println!(
            "This port's time divided by the original's, from the best of {} rounds of each side: below 1, this port is faster.",
            self.rounds
        );
        println!(
            "A room is exactly as long as its message, and is not cleared before a write on either side."
        );
        println!("The original runs over our stand-ins for the crates that it uses.");
        if self.times {
            println!("In brackets: nanoseconds of a call, the original's first.");
        }
        println!("\n| What | Bytes | Reading | Writing |\n|---|---|---|---|");
    }

    fn cell(&self, best: Option<Best>) -> String {
        match best {
            None => "–".to_owned(),
            Some(b) if self.times => {
                format!("{:.2} ({:.1}, {:.1})", b.ratio(), b.original, b.port)
            }
            Some(b) => format!("{:.2}", b.ratio()),
        }
    }
}

/// The best of reading and of writing, where the row has them.
fn bests(row: &Row, rounds: u32) -> [Option<Best>; 2] {
    Way::BOTH.map(|way| Some(best_of(rounds, row.sides(way)?, row.bytes)))
}

/// Times every row and prints it at once, in a line: its name, the ratio of reading and that of writing, or `-`, between tabs.
pub fn print_plain(rows: &[Row], rounds: u32) {
    for row in rows {
        let cell =
            |best: Option<Best>| best.map_or("-".to_owned(), |b| format!("{:.2}", b.ratio()));
        let [reading, writing] = bests(row, rounds).map(cell);
        println!("{}\t{reading}\t{writing}", row.what);
    }
}
