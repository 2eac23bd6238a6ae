//! What changed between two listings.
use crate::bench::{Bench, Writer};
use crate::change_model::{self as model, Entry, Handed};
use crate::listing_model::{self as listing, Record};
use crate::listings::{MOST, SUBS, chosen, of_code, record};
use crate::report::{agree, hex};
use crate::rng::Rng;
use crate::tally::{Call, Rule};
use skrolvind::flat::{self, Written};
use skrolvind::{Change, Listing, ListingSub, Which};

fn bound([change, high, middle, low, old, new]: Entry) -> Change {
    let code = of_code([high, middle, low]);
    match change {
        1 => Change::Gone { code, old },
        2 => Change::Differs { code, old, new },
        _ => Change::New { code, new },
    }
}

fn read<'a>((sub, message): Handed<'a>) -> Option<Listing<'a>> {
    Listing::read(ListingSub::from_number(sub.into())?, message).ok()
}

impl Bench {
    /// Two listings compared, in rooms of several lengths. The binding is asked where both can be read.
    fn compared(&mut self, first: Handed<'_>, second: Handed<'_>) {
        let wanted = model::changes(first, second);
        let refused = wanted.as_ref().map_or_else(|(which, _)| *which, |_| 0);
        let entries: Vec<_> = wanted.iter().flatten().copied().map(bound).collect();
        let input = || {
            let ((a, first), (b, second)) = (first, second);
            format!("{a:02X} {}, {b:02X} {}", hex(first), hex(second))
        };
        let which = |number| if number == 7 { 0 } else { refused };
        let said = "another of two listings is said to be refused";
        let writer = Writer {
            call: Call::ListingChanges,
            kind: first.0,
            input: &input,
            arguments: &Vec::new,
            bytes: first.1,
            flat: |room: &mut [u8]| {
                let r = flat::listing_changes(first, second, room);
                agree(said, first.1, &r.which, &which(r.number));
                Written {
                    number: r.number,
                    first: r.first,
                    second: r.second,
                    written: r.written,
                }
            },
            bound: |room: &mut [u8]| {
                let answer = read(first)?.changes(&read(second)?, room);
                Some(match answer {
                    Ok(changes) => {
                        let ours: Vec<_> = changes.collect();
                        agree("the binding tells other changes", first.1, &ours, &entries);
                        Ok(6 * ours.len())
                    }
                    Err(e) => {
                        let ours = [None, Some(Which::First), Some(Which::Second)];
                        let ours = ours.into_iter().position(|which| which == e.which);
                        let told = which(e.refusal.number()) as usize;
                        agree(said, first.1, &ours, &Some(told));
                        Err(e.refusal)
                    }
                })
            },
        };
        let wanted = wanted.map(|entries| entries.concat());
        self.watched(second.1, |bench| {
            bench.beside_model(&writer, wanted.map_err(|(_, e)| e), Rule::Changes);
        });
    }

    /// Both ways, and each with itself.
    fn both_ways(&mut self, first: Handed<'_>, second: Handed<'_>) {
        for (first, second) in [(first, second), (second, first), (first, first)] {
            self.compared(first, second);
        }
    }
}

/// A code with two statuses and, where it has a rating, with another severity, another unit and 0 for both; and two other codes.
fn few(sub: u8) -> Vec<Record> {
    let [_, a, b, _, c, d] = chosen(sub);
    let rated = |rating| Record {
        rating: Some(rating),
        ..a
    };
    let mut records = vec![a, d, b, c];
    if sub == 0x08 {
        records.extend([rated([0x81, 0x06]), rated([0, 0])]);
    }
    records
}

/// All listings of up to so many of these records.
fn listings(sub: u8, records: &[Record], most: usize) -> Vec<Vec<u8>> {
    let mut all = vec![vec![]];
    let mut longest = all.clone();
    for _ in 0..most {
        longest = longest
            .iter()
            .flat_map(|list| records.iter().map(|last| [&list[..], &[*last]].concat()))
            .collect();
        all.extend(longest.iter().cloned());
    }
    let message = |list: &Vec<Record>| listing::message(sub, list.len() as u8, list);
    all.iter().map(message).collect()
}

/// Every two listings of up to 3 chosen records, of either sub-function.
pub fn short(bench: &mut Bench) {
    let all = SUBS.map(|sub| (sub, listings(sub, &few(sub), 3)));
    for (a, firsts) in &all {
        for (b, seconds) in &all {
            for first in firsts {
                for second in seconds {
                    bench.compared((*a, first), (*b, second));
                }
            }
        }
    }
}

/// Every sub-function for each listing, every cut of each, and every two of these: good, repeated, cut, too long, too short, of wrong
/// first bytes, of an unknown sub-function.
pub fn refused(bench: &mut Bench) {
    for sub in SUBS {
        let [a, b, c, d, e, again] = chosen(sub);
        let good = listing::message(sub, 0x7F, &[a, b, c, d, e]);
        let other = listing::message(sub, 0xFF, &[b, d, e]);
        for any in 0..=255 {
            bench.both_ways((any, &good), (sub, &other));
        }
        for len in 0..good.len() {
            bench.both_ways((sub, &good[..len]), (sub, &other));
        }
        let twice = listing::message(sub, 0x7F, &[a, b, c, again, a]);
        let long = listing::message(sub, 0x7F, &[b].repeat(MOST + 1));
        let mut spoiled = good.clone();
        spoiled[0] = 0x19;
        let handed = [
            (sub, &good[..]),
            (sub, &twice),
            (sub, &twice[..twice.len() - 1]),
            (sub, &long),
            (sub, &good[..2]),
            (sub, &spoiled),
            (0x0A, &good),
        ];
        for first in handed {
            for second in handed {
                bench.compared(first, second);
            }
        }
    }
}

/// A code that stands twice, at every two places of 12, with a second one behind it or not.
pub fn repeated(bench: &mut Bench) {
    for sub in SUBS {
        let own = |k: u8| record(sub, [k, 1], [[0x03, k][usize::from(k % 2)], k, 0x11, k]);
        let records: Vec<_> = (0..12).map(own).collect();
        let good = listing::message(sub, 0xFF, &records);
        for place in 0..records.len() {
            for before in 0..place {
                let mut list = records.clone();
                list[place].code = list[before].code;
                let twice = listing::message(sub, 0xFF, &list);
                bench.both_ways((sub, &twice), (sub, &good));
                list[11].code = list[0].code;
                let more = listing::message(sub, 0xFF, &list);
                bench.both_ways((sub, &more), (sub, &good));
            }
        }
    }
}

/// As many records as there may be, with as many high bytes as there are: in another order, another status in each, no code in common,
/// half of them, and a code that stands twice in the last record. With one high byte, the last two.
pub fn long(bench: &mut Bench) {
    for (sub, highs) in [(0x02, 256), (0x08, 256), (0x02, 1)] {
        let records = |status: u8, from: usize| -> Vec<Record> {
            let own = |k: usize| {
                let [.., middle, low] = (k as u32).to_be_bytes();
                record(sub, [low, 0], [(k % highs) as u8, middle, low, status])
            };
            (from..from + MOST).map(own).collect()
        };
        let mut turned = records(0x2F, 0);
        turned.reverse();
        let mut twice = records(0x2F, 0);
        twice[MOST - 1].code = twice[MOST / 2].code;
        let mut seconds = vec![twice, records(0x2F, MOST / 2)];
        if highs > 1 {
            seconds.extend([records(0x2F, MOST), records(0x09, 0), turned]);
        }
        let first = listing::message(sub, 0xFF, &records(0x2F, 0));
        for second in seconds {
            let second = listing::message(sub, 0x7F, &second);
            bench.compared((sub, &first), (sub, &second));
        }
    }
}

/// Two random listings of either sub-function with codes in common; once in a while a code stands twice, or a byte is lost.
pub fn round(bench: &mut Bench, rng: &mut Rng) {
    for _ in 0..30 {
        let most = rng.choose(&[3, 30, 300]);
        let handed = [(); 2].map(|()| {
            let sub = rng.choose(&SUBS);
            let step = rng.choose(&[1, 3, 7, 11]);
            let (from, count) = (rng.below(most), rng.below(most));
            let mut records: Vec<Record> = (0..count)
                .map(|k| {
                    let code = (from + step * k) % 331;
                    let code = [(code % 5) as u8, (code / 5) as u8, 0x11];
                    let [high, middle, low] = code;
                    let status = rng.byte() % 2;
                    record(sub, [rng.byte() % 2, 0], [high, middle, low, status])
                })
                .collect();
            if rng.once_in(6) && !records.is_empty() {
                records.push(records[rng.below(records.len())]);
            }
            let mut message = listing::message(sub, rng.byte(), &records);
            if rng.once_in(12) {
                message.pop();
            }
            (sub, message)
        });
        let [(a, first), (b, second)] = &handed;
        bench.both_ways((*a, first), (*b, second));
    }
}
