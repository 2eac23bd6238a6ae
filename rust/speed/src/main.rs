//! Times the original and this port on the same inputs, in turns, and prints their ratios as a table, or in lines for a program.
//!
//! The original is called as itself, this port through its binding. With `--side` one side runs alone and without a clock, so that
//! its instructions can be counted.
mod arguments;
mod batch;
mod clock;
mod desk;
mod listing;
mod log;
mod messages;
mod row;
mod rows;
mod same;
mod sheet;
mod table;

use arguments::{Arguments, Print};
use row::{Row, Side, Way};
use table::Table;

fn main() {
    let arguments = Arguments::given();
    let mut rows = rows::rows();
    rows.retain(|row| row.what.contains(&arguments.only));
    if arguments.print != Print::Names {
        rows.iter().for_each(Row::must_agree);
    }
    let (Some(side), Some(iterations)) = (arguments.side, arguments.iterations) else {
        return print(&rows, arguments.print, arguments.rounds);
    };
    for way in Way::BOTH {
        if arguments.way.is_none_or(|wanted| wanted == way) {
            run_alone(&rows, way, side, iterations);
        }
    }
}

fn print(rows: &[Row], what: Print, rounds: u32) {
    match what {
        Print::Ratios | Print::Times => {
            let times = what == Print::Times;
            Table { rounds, times }.print(rows);
        }
        Print::Plain => table::print_plain(rows, rounds),
        Print::Names => rows.iter().for_each(|row| println!("{}", row.what)),
    }
}

fn run_alone(rows: &[Row], way: Way, side: Side, iterations: u64) {
    for row in rows {
        if let Some(sides) = row.sides(way) {
            sides.of(side)(iterations, &mut vec![0; row.bytes]);
        }
    }
}
