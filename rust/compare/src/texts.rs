//! Codes and listings as text: codes written and read, listings exported and imported.
use crate::bench::{Bench, Writer};
use crate::expected;
use crate::listing_model::{self as listing, Code, Record};
use crate::listings::{MOST, SUBS, chosen, of_code, record};
use crate::report::{agree, hex};
use crate::rng::Rng;
use crate::tally::{Call, Rule};
use crate::text_model as model;
use skrolvind::flat;
use skrolvind::{Listing, ListingSub, TroubleCode};

/// Each letter, digit and nibble is in one of them.
const CODES: [Code; 5] = [
    [0x03, 0x01, 0x11],
    [0x5A, 0x2B, 0x3C],
    [0xA4, 0xD5, 0xE6],
    [0xF7, 0x89, 0x0F],
    [0xC1, 0x00, 0x00],
];

impl Bench {
    /// A code written, in rooms of several lengths; the binding has a text of its own.
    fn code_written(&mut self, code: Code) {
        let text = model::code_text(code);
        let writer = Writer {
            call: Call::CodeText,
            kind: 0,
            input: &|| hex(&code),
            arguments: &Vec::new,
            bytes: &[],
            flat: |room: &mut [u8]| flat::code_text(of_code(code), room),
            bound: |_: &mut [u8]| None,
        };
        self.beside_model(&writer, Ok(text.clone().into_bytes()), Rule::Text);
        agree(
            "the binding writes a code otherwise",
            &code,
            &of_code(code).to_string(),
            &text,
        );
    }

    /// A code read; by the binding where the text is one for Rust.
    fn code_read(&mut self, text: &[u8]) {
        let wanted = model::read_code(text);
        self.watched(text, |bench| {
            agree(
                "a code is read otherwise",
                text,
                &flat::read_code_text(text),
                &expected::code(wanted),
            );
            bench.tally.count(Call::ReadCodeText, Some(Rule::Text));
            if let Ok(for_rust) = str::from_utf8(text) {
                agree(
                    "the binding reads a code otherwise",
                    text,
                    &for_rust.parse::<TroubleCode>().map_err(expected::refusal),
                    &wanted.map(of_code),
                );
            }
        });
    }

    /// A listing exported, in rooms of several lengths.
    fn exported(&mut self, sub: u8, message: &[u8]) {
        let writer = Writer {
            call: Call::ExportListing,
            kind: sub,
            input: &|| format!("{sub:02X} {}", hex(message)),
            arguments: &|| vec![sub],
            bytes: message,
            flat: |room: &mut [u8]| flat::export_listing(sub, message, room),
            bound: |room: &mut [u8]| {
                let listing = Listing::read(ListingSub::from_number(sub.into())?, message);
                Some(listing.and_then(|listing| listing.export(room)))
            },
        };
        self.beside_model(&writer, model::export(sub, message), Rule::Text);
    }

    /// A text imported, likewise.
    fn imported(&mut self, mask: u8, text: &[u8]) {
        let writer = Writer {
            call: Call::ImportListing,
            kind: mask,
            input: &|| format!("{mask:02X} {}", hex(text)),
            arguments: &|| vec![mask],
            bytes: text,
            flat: |room: &mut [u8]| flat::import_listing(mask, text, room),
            bound: |room: &mut [u8]| Some(skrolvind::import_listing(mask, text, room)),
        };
        self.beside_model(&writer, model::import(mask, text), Rule::Text);
    }

    /// A listing exported, and what is exported imported again.
    fn back_and_forth(&mut self, sub: u8, mask: u8, records: &[Record]) {
        let message = listing::message(sub, mask, records);
        self.exported(sub, &message);
        if let Ok(text) = model::export(sub, &message) {
            self.imported(mask, &text);
        }
    }
}

/// Codes of every two bytes, written and read.
pub fn codes(bench: &mut Bench) {
    for a in 0..=255 {
        for b in 0..=255 {
            for code in [[a, b, 0x5C], [a, 0xA3, b], [0xC7, a, b]] {
                bench.code_written(code);
                bench.code_read(model::code_text(code).as_bytes());
            }
        }
    }
}

/// Texts that are no code, or nearly: cut at every place, lengthened by every byte, with every byte at every place, and a second fault.
pub fn code_faults(bench: &mut Bench) {
    bench.code_read(&[]);
    for code in CODES {
        let good = model::code_text(code);
        for len in 0..=good.len() {
            bench.code_read(&good.as_bytes()[..len]);
        }
        for byte in 0..=255 {
            for more in 1..=5 {
                bench.code_read(&[good.as_bytes(), &vec![byte; more]].concat());
            }
            for place in 0..good.len() {
                let mut text = good.clone().into_bytes();
                text[place] = byte;
                bench.code_read(&text);
                for other in 0..good.len() {
                    let mut text = text.clone();
                    text[other] = b'_';
                    bench.code_read(&text);
                    bench.code_read(&text[..other]);
                }
            }
        }
        let [small, spaced] = [good.to_lowercase(), format!(" {good}")];
        for text in [small, spaced, format!("{good}\n"), good.replace('-', "")] {
            bench.code_read(text.as_bytes());
        }
    }
}

/// Listings of both sub-functions exported, and their texts imported: all of up to 3 chosen records, every cut, every other
/// sub-function; and as many records as there may be, fewer and more.
pub fn listings(bench: &mut Bench) {
    for sub in SUBS {
        let chosen = chosen(sub);
        bench.back_and_forth(sub, 0xFF, &[]);
        for a in chosen {
            bench.back_and_forth(sub, a.status, &[a]);
            for b in chosen {
                bench.back_and_forth(sub, b.status, &[a, b]);
                for c in chosen {
                    bench.back_and_forth(sub, c.status, &[a, b, c]);
                }
            }
        }
        let message = listing::message(sub, 0x7F, &chosen[..3]);
        for other in 0..=255 {
            for len in 0..=message.len() {
                bench.exported(other, &message[..len]);
            }
        }
        let many = [chosen[1], chosen[4]].repeat(MOST / 2 + 1);
        for count in [MOST - 1, MOST, MOST + 1] {
            bench.back_and_forth(sub, 0x7F, &many[..count]);
            let message = listing::message(sub, 0x7F, &many[..count]);
            bench.exported(sub, &message[..message.len() - 1]);
        }
    }
    for mask in 0..=255 {
        bench.imported(mask, b"P0301-11 2F\n");
    }
}

/// Texts that are no listing, or nearly: every byte at every place of three lines, a second fault anywhere, every cut, other ends of
/// lines, empty lines, spaces, and faults before and behind the 4,096th line.
pub fn listing_faults(bench: &mut Bench) {
    let line = |code: Code| format!("{} {:02X}\n", model::code_text(code), code[1]);
    let good = CODES[..3].iter().map(|code| line(*code));
    let good = good.collect::<String>();
    for place in 0..good.len() {
        bench.imported(0xFF, &good.as_bytes()[..place]);
        for byte in 0..=255 {
            let mut text = good.clone().into_bytes();
            text[place] = byte;
            bench.imported(byte, &text);
        }
        for other in 0..good.len() {
            let mut text = good.clone().into_bytes();
            (text[place], text[other]) = (b'\r', b'x');
            bench.imported(0xFF, &text);
            bench.imported(0xFF, &text[..other]);
        }
        for more in ["\n", "\r", " ", "0", "P", "p", "-", "\0", "\u{FEFF}"] {
            let (before, behind) = good.split_at(place);
            bench.imported(0xFF, [before, more, behind].concat().as_bytes());
        }
    }
    for text in [
        good.replace('\n', "\r\n"),
        good.replace('\n', "\r"),
        good.replace('\n', "\n\n"),
        good.replace(' ', "\t"),
        good.replace(' ', ""),
        good.to_lowercase(),
        format!("{good}\n"),
        format!("{good}U0100-00"),
    ] {
        bench.imported(0xFF, text.as_bytes());
    }
    long_faults(bench, &line(CODES[3]));
}

/// One fault in as many lines as there may be and one more, and every cut of the last line.
fn long_faults(bench: &mut Bench, line: &str) {
    let long = line.repeat(MOST + 1).into_bytes();
    for place in [0, 11, 12 * MOST - 1, 12 * MOST, 12 * MOST + 11] {
        let mut text = long.clone();
        text[place] = b'z';
        for end in [12 * MOST, 12 * MOST + 1, 12 * MOST + 12] {
            bench.imported(0xFF, &text[..end]);
        }
    }
    for end in 12 * MOST - 12..=long.len() {
        bench.imported(0xFF, &long[..end]);
    }
}

/// Random codes, listings of either sub-function, and damaged texts of them.
pub fn round(bench: &mut Bench, rng: &mut Rng) {
    for _ in 0..20 {
        let code = [rng.byte(), rng.byte(), rng.byte()];
        bench.code_written(code);
        let mut text = model::code_text(code).into_bytes();
        bench.code_read(&text);
        let place = rng.below(text.len());
        text[place] = rng.byte() & 0x7F;
        bench.code_read(&text);

        let sub = rng.choose(&SUBS);
        let most = rng.choose(&[3, 30, 300]);
        let records: Vec<Record> = (0..rng.below(most))
            .map(|_| {
                let [a, b, c, d, e, f, ..] = rng.number().to_le_bytes();
                record(sub, [a, b], [c, d, e, f])
            })
            .collect();
        bench.back_and_forth(sub, rng.byte(), &records);
        let message = listing::message(sub, rng.byte(), &records);
        let Ok(mut text) = model::export(sub, &message) else {
            continue;
        };
        text.truncate(rng.below(text.len() + 1));
        bench.imported(rng.byte(), &text);
        if let Some(last) = text.len().checked_sub(1) {
            let place = rng.below(last + 1);
            text[place] = rng.choose(b"PU-0F \nf\r");
            bench.imported(rng.byte(), &text);
        }
        bench.exported(rng.choose(&SUBS), &message[..rng.below(message.len() + 1)]);
    }
}
