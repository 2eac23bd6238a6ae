//! Sheets of records, and the loop that the tally is timed against: the original has none.

/// The table of the records, or nothing where they are refused: judged and counted in one loop, as one would write it.
pub fn tally(records: &[u8]) -> Option<[[u32; 10]; 12]> {
    let (records, piece) = records.as_chunks::<8>();
    if records.len() > 65_536 || !piece.is_empty() {
        return None;
    }
    let mut table = [[0; 10]; 12];
    for [month, _, direction, number, ..] in records {
        if !(1..=12).contains(month) || *direction > 1 || *number > 9 {
            return None;
        }
        table[usize::from(month - 1)][usize::from(*number)] += 1;
    }
    Some(table)
}

fn record(month: usize, turn: usize, number: usize) -> [u8; 8] {
    let [a, b, c, d] = (turn as u32).to_be_bytes();
    let (station, direction) = (turn % 7, turn % 2);
    [
        month as u8,
        station as u8,
        direction as u8,
        number as u8,
        a,
        b,
        c,
        d,
    ]
}

/// Month after month, and eight in a hundred refused, as a station writes them down.
pub fn year(count: usize) -> Vec<u8> {
    let number = |turn| if turn % 100 < 8 { 1 + turn % 9 } else { 0 };
    let records = (0..count).map(|turn| record(1 + 12 * turn / count, turn, number(turn)));
    records.flatten().collect()
}

/// No two records in a row in one cell.
pub fn cells_in_turn(count: usize) -> Vec<u8> {
    let records = (0..count).map(|turn| record(1 + turn / 10 % 12, turn, turn % 10));
    records.flatten().collect()
}
