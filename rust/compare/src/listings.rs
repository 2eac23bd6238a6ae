//! Trouble-code listings: read, record by record, indexed, looked up and written.
use crate::bench::{Bench, Writer};
use crate::expected;
use crate::listing_model::{self as model, Answer, Code, Index, Listing, Record};
use crate::report::agree;
use crate::rng::Rng;
use crate::tally::{Call, Rule};
use oracle::plain::Refusal;
use skrolvind::flat::{self, Found, Head, Listed};
use skrolvind::{CodeRecord, ListingSub, Rating, Severity, TroubleCode};
use std::array::from_fn;

pub const SUBS: [u8; 2] = [0x02, 0x08];
/// Codes that differ in one byte, in two and in all, with high bytes at both ends; and statuses.
const CHOSEN: [[u8; 4]; 6] = [
    [0x00, 0x00, 0x00, 0x00],
    [0x03, 0x01, 0x11, 0x2F],
    [0x03, 0x01, 0x12, 0x2F],
    [0x03, 0x02, 0x11, 0x09],
    [0xFF, 0x01, 0x11, 0x08],
    [0x03, 0x01, 0x11, 0x80],
];
/// Severities with a class and without, and functional units: both 0, and such as look like the beginning of a code.
const RATINGS: [[u8; 2]; 6] = [
    [0x00, 0x00],
    [0x81, 0x05],
    [0x03, 0x01],
    [0x80, 0xFF],
    [0xFF, 0x03],
    [0x00, 0x02],
];
const ABSENT: [Code; 4] = [
    [0x03, 0x03, 0x11],
    [0x03, 0x01, 0x10],
    [0x04, 0x01, 0x11],
    [0xFE, 0, 0],
];
pub const MOST: usize = 4096;

/// A record as a listing of this sub-function has it.
pub fn record(sub: u8, rating: [u8; 2], [high, middle, low, status]: [u8; 4]) -> Record {
    Record {
        rating: (sub == 0x08).then_some(rating),
        code: [high, middle, low],
        status,
    }
}

pub fn chosen(sub: u8) -> [Record; 6] {
    from_fn(|i| record(sub, RATINGS[i], CHOSEN[i]))
}

/// A record as it is handed over, with this mark where severity and functional unit are known.
fn seven(record: &Record, mark: u8) -> [u8; 7] {
    let known = |[severity, unit]: [u8; 2]| [mark, severity, unit];
    let [known, severity, unit] = record.rating.map_or([0; 3], known);
    let [high, middle, low] = record.code;
    [known, severity, unit, high, middle, low, record.status]
}

fn handed(records: &[Record], mark: u8) -> Vec<u8> {
    let bytes = |record| seven(record, mark);
    records.iter().flat_map(bytes).collect()
}

pub fn of_code([high, middle, low]: Code) -> TroubleCode {
    TroubleCode { high, middle, low }
}

fn bound_record(record: &Record) -> skrolvind::Listed {
    let rating = |[severity, unit]: [u8; 2]| Rating {
        severity: Severity::from_bits(severity),
        unit,
    };
    skrolvind::Listed {
        rating: record.rating.map(rating),
        code: of_code(record.code),
        status: record.status,
    }
}

/// What is handed over, as the binding takes it: nothing where the last record is cut.
fn bound_records(bytes: &[u8]) -> Option<Vec<CodeRecord>> {
    let (records, piece) = bytes.as_chunks();
    let of = |[known, severity, unit, high, middle, low, status]: [u8; 7]| CodeRecord {
        known,
        severity,
        unit,
        high,
        middle,
        low,
        status,
    };
    let all = || records.iter().copied().map(of).collect();
    piece.is_empty().then(all)
}

/// The three numbers with which every record begins.
fn numbers<T>(answer: &Answer<T>) -> [u64; 3] {
    match answer {
        Ok(_) => [0; 3],
        Err(e) => [e.number, e.first, e.second],
    }
}

fn head(answer: &Answer<Listing>) -> Head {
    let [number, first, second] = numbers(answer);
    let (mask, count) = match answer {
        Ok(listing) => (listing.mask, listing.records.len()),
        Err(_) => (0, 0),
    };
    Head {
        number,
        first,
        second,
        mask: mask.into(),
        count: count as u64,
    }
}

fn listed(answer: &Answer<Listing>, place: usize) -> Listed {
    let [number, first, second] = numbers(answer);
    let records = answer.as_ref().map_or(&[][..], |listing| &listing.records);
    let record = records.get(place).map(|record| seven(record, 1));
    let [known, severity, unit, high, middle, low, status] =
        record.unwrap_or_default().map(u64::from);
    Listed {
        number,
        first,
        second,
        found: record.is_some().into(),
        known,
        severity,
        unit,
        high,
        middle,
        low,
        status,
    }
}

fn found(answer: &Answer<(usize, Record)>) -> Found {
    let [number, first, second] = numbers(answer);
    let (place, record) = match answer {
        Ok((place, record)) => (*place, seven(record, 1)),
        Err(_) => (0, [0; 7]),
    };
    let [known, severity, unit, high, middle, low, status] = record.map(u64::from);
    Found {
        number,
        first,
        second,
        place: place as u64,
        known,
        severity,
        unit,
        high,
        middle,
        low,
        status,
    }
}

impl Bench {
    /// A listing read: its head, its index, and the records at these places.
    fn listing(&mut self, sub: u8, message: &[u8], places: &[usize]) {
        let wanted = model::read(sub, message);
        self.watched(message, |bench| {
            agree(
                "a listing is read otherwise",
                message,
                &flat::read_listing(sub, message),
                &head(&wanted),
            );
            bench.tally.count(Call::ReadListing, Some(Rule::Listing));
            for place in places {
                agree(
                    "a record of a listing is another",
                    message,
                    &flat::listing_record(sub, message, *place),
                    &listed(&wanted, *place),
                );
                bench.tally.count(Call::ListingRecord, Some(Rule::Listing));
            }
            bench.listing_index(sub, message, &wanted);
            if let Some(sub) = ListingSub::from_number(sub.into()) {
                bound_listing(sub, message, &wanted, places);
            }
        });
    }

    fn listing_index(&mut self, sub: u8, message: &[u8], wanted: &Answer<Listing>) {
        let ours = flat::listing_index(sub, message);
        let own = model::index(wanted.as_ref().map_or(&[], |listing| &listing.records));
        agree(
            "an index answers otherwise",
            message,
            &[ours.number, ours.first, ours.second],
            &numbers(wanted),
        );
        agree(
            "an index counts otherwise",
            message,
            &(&ours.counts[..], &ours.firsts[..]),
            &(&own.counts[..], &own.firsts[..]),
        );
        self.tally.count(Call::ListingIndex, Some(Rule::Listing));
    }

    /// A code looked up by an index, the listing's own or not.
    fn look_up(&mut self, sub: u8, message: &[u8], kept: &Index, code: Code) {
        let wanted = model::look_up(sub, message, kept, code);
        let (counts, firsts) = (&kept.counts[..], &kept.firsts[..]);
        self.watched(message, |bench| {
            agree(
                "a code is looked up otherwise",
                message,
                &flat::listing_lookup(sub, message, counts, firsts, of_code(code)),
                &found(&wanted),
            );
            bench.tally.count(Call::LookUp, Some(Rule::Listing));
            let (Ok(counts), Ok(firsts)) = (counts.try_into(), firsts.try_into()) else {
                return;
            };
            let Some(sub) = ListingSub::from_number(sub.into()) else {
                return;
            };
            let Ok(listing) = skrolvind::Listing::read(sub, message) else {
                return;
            };
            let told = wanted.map(|(place, record)| (place, bound_record(&record)));
            agree(
                "the binding looks a code up otherwise",
                message,
                &skrolvind::Index::kept(listing, counts, firsts)
                    .get(of_code(code))
                    .map_err(expected::refusal),
                &match told {
                    Err(Refusal { number: 16, .. }) => Ok(None),
                    other => other.map(Some),
                },
            );
        });
    }

    /// Codes looked up by the listing's own index.
    fn look_ups(&mut self, sub: u8, message: &[u8], records: &[Record], codes: &[Code]) {
        let own = model::index(records);
        for code in codes {
            self.look_up(sub, message, &own, *code);
        }
    }

    /// A listing written, in rooms of several lengths.
    fn written_listing(&mut self, sub: u8, mask: u8, records: &[u8]) {
        let (known, list) = (ListingSub::from_number(sub.into()), bound_records(records));
        let writer = Writer {
            call: Call::WriteListing,
            kind: sub,
            input: &|| format!("{sub:02X} {mask:02X} {}", crate::report::hex(records)),
            arguments: &|| vec![sub, mask],
            bytes: records,
            flat: |room: &mut [u8]| flat::write_listing(sub, mask, records, room),
            bound: |room: &mut [u8]| {
                let (sub, list) = (known?, list.as_deref()?);
                Some(skrolvind::write_listing(sub, mask, list, room))
            },
        };
        self.beside_model(&writer, model::write(sub, mask, records), Rule::Listing);
    }
}

/// A listing read through the binding.
fn bound_listing(sub: ListingSub, message: &[u8], wanted: &Answer<Listing>, places: &[usize]) {
    let bound = skrolvind::Listing::read(sub, message);
    let ours = bound.map(|listing| (listing.mask(), listing.records().collect::<Vec<_>>()));
    let told = wanted.as_ref().map(|listing| {
        let records = listing.records.iter().map(bound_record);
        (listing.mask, records.collect())
    });
    agree(
        "the binding reads a listing otherwise",
        message,
        &ours.map_err(expected::refusal),
        &told.map_err(|refusal| *refusal),
    );
    let (Ok(bound), Ok(listing)) = (bound, wanted) else {
        return;
    };
    for place in places {
        agree(
            "the binding hands out another record",
            message,
            &bound.record(*place),
            &listing.records.get(*place).map(bound_record),
        );
    }
    let (index, own) = (bound.index(), model::index(&listing.records));
    agree(
        "the binding's index counts otherwise",
        message,
        &(&index.counts()[..], &index.firsts()[..]),
        &(&own.counts[..], &own.firsts[..]),
    );
}

/// Every first byte with every second one, every sub-function, and every cut.
pub fn heads(bench: &mut Bench) {
    for form in SUBS {
        let records = &chosen(form)[1..4];
        let (good, handed) = (model::message(form, 0x7F, records), handed(records, 1));
        for sub in 0..=255 {
            for len in 0..=good.len() {
                bench.listing(sub, &good[..len], &[0, 1, 2, 3, usize::MAX]);
            }
            for len in 0..=handed.len() {
                bench.written_listing(sub, 0x7F, &handed[..len]);
            }
        }
        let one = model::message(form, 0x7F, &records[..1]);
        let mut changed = [&one[..], &[0]].concat();
        for answer in 0..=255 {
            for sub in 0..=255 {
                (changed[0], changed[1]) = (answer, sub);
                bench.listing(form, &changed[..one.len()], &[0]);
                bench.listing(sub, &changed, &[0]);
            }
        }
        for short in [&[][..], &[0x59], &[0x59, form], &[0, 0], &[0x59, 0x0A]] {
            bench.listing(form, short, &[0]);
        }
    }
}

/// All listings of up to 4 chosen records, with every chosen code and some that are absent.
pub fn short_listings(bench: &mut Bench) {
    for sub in SUBS {
        let chosen = chosen(sub);
        let codes = [&chosen.map(|record| record.code)[..], &ABSENT].concat();
        for len in 0..=4 {
            for number in 0..chosen.len().pow(len) {
                let mut left = number;
                let mut records = Vec::new();
                for _ in 0..len {
                    records.push(chosen[left % chosen.len()]);
                    left /= chosen.len();
                }
                let message = model::message(sub, number as u8, &records);
                bench.listing(sub, &message, &[0, 1, 2, 3, 4]);
                bench.look_ups(sub, &message, &records, &codes);
                bench.written_listing(sub, number as u8, &handed(&records, 1));
            }
        }
    }
}

/// Records handed over with every mark, over severities and functional units that are 0 and not; and marks that do not fit, at
/// every place, the first of one or of two, in lists that are good, cut, and too long besides.
pub fn marks(bench: &mut Bench) {
    for sub in SUBS {
        let good = chosen(sub);
        for mark in 0..=255 {
            for rating in [RATINGS[0], RATINGS[1]] {
                let marked = seven(&record(0x08, rating, CHOSEN[1]), mark);
                bench.written_listing(sub, mark, &marked);
                let second = [seven(&good[0], 1), marked].concat();
                bench.written_listing(sub, mark, &second);
            }
        }
        let unfit = u8::from(sub == 0x02);
        let spoiled = |records: &[Record], places: &[usize]| {
            let mut bytes = handed(records, 1);
            for place in places {
                bytes[7 * place] = unfit;
            }
            bytes
        };
        for place in 0..good.len() {
            for other in place..good.len() {
                let bytes = spoiled(&good, &[place, other]);
                for len in 7 * place..=bytes.len() {
                    bench.written_listing(sub, 0xFF, &bytes[..len]);
                }
            }
        }
        let many = [good[1]].repeat(MOST + 1);
        for place in [0, 1, MOST - 1, MOST] {
            let bytes = spoiled(&many, &[place]);
            for len in [7 * MOST, 7 * MOST + 6, 7 * MOST + 7] {
                bench.written_listing(sub, 0xFF, &bytes[..len]);
            }
        }
    }
}

/// Each number of an index spoiled, and lists of other lengths, for codes that are there and not.
pub fn other_indexes(bench: &mut Bench) {
    for sub in SUBS {
        let [_, a, _, b, c, _] = chosen(sub);
        let records = [a, c, a, b];
        let message = model::message(sub, 0xFF, &records);
        let own = model::index(&records);
        let kept = spoiled_indexes(&records);
        let codes = [a.code, c.code, [0x03, 9, 9], [8, 8, 8]];
        for index in &kept {
            for code in codes {
                bench.look_up(sub, &message, index, code);
            }
        }
        for bad in [&message[..2], &message[..5], &message[1..]] {
            bench.look_up(sub, bad, &own, codes[0]);
            bench.look_up(sub, bad, &kept[0], codes[2]);
        }
        for other in [0x00, 0x02, 0x08, 0x0A] {
            bench.look_up(other, &message, &own, codes[0]);
        }
    }
}

/// Indexes that are not these records' own.
fn spoiled_indexes(records: &[Record]) -> Vec<Index> {
    let own = model::index(records);
    let mut kept = Vec::new();
    for place in 0..256 {
        for more in [1, u32::MAX, 1 << 31] {
            let (mut counts, mut firsts) = (own.clone(), own.clone());
            counts.counts[place] = counts.counts[place].wrapping_add(more);
            firsts.firsts[place] = firsts.firsts[place].wrapping_add(more);
            kept.extend([counts, firsts]);
        }
    }
    for len in [0, 1, 255, 257, 512] {
        let (mut counts, mut firsts) = (own.clone(), own.clone());
        counts.counts.resize(len, 0);
        firsts.firsts.resize(len, 0);
        kept.extend([counts, firsts]);
    }
    kept.push(model::index(&records[1..]));
    kept.push(model::index(&[]));
    kept
}

/// As many records as there may be, fewer and more, with every piece of one after them; codes in the first record, the last and nowhere.
pub fn long_listings(bench: &mut Bench) {
    for sub in SUBS {
        let one = [chosen(sub)[1]].repeat(MOST + 2);
        let many: Vec<Record> = (0..MOST + 2)
            .map(|place| {
                let [high, low] = [(place % 251) as u8, (place / 251) as u8];
                record(sub, [low, high], [high, low, 7, place as u8])
            })
            .collect();
        for records in [&one, &many] {
            let (all, handed) = (model::message(sub, 0xFF, records), handed(records, 1));
            let size = records[0].bytes().len();
            for count in [MOST - 1, MOST, MOST + 1] {
                for piece in 0..size {
                    let places = [0, count - 1, count, count + 1];
                    bench.listing(sub, &all[..3 + size * count + piece], &places);
                }
                for piece in 0..7 {
                    bench.written_listing(sub, 0xFF, &handed[..7 * count + piece]);
                }
            }
        }
        let mut records = one[..MOST].to_vec();
        for place in [0, 1, MOST / 2, MOST - 1] {
            let code = [0x03, 0x77, place as u8];
            records[place].code = code;
            let message = model::message(sub, 1, &records);
            let codes = [code, [0x03, 0x77, 0x55], [0x33, 0, 0]];
            bench.look_ups(sub, &message, &records, &codes);
        }
    }
}

/// Random listings of either sub-function, with codes that are there mostly.
pub fn round(bench: &mut Bench, rng: &mut Rng) {
    for _ in 0..20 {
        let sub = rng.choose(&SUBS);
        let most = rng.choose(&[3, 30, 300]);
        let records: Vec<Record> = (0..rng.below(most))
            .map(|_| {
                let code = [rng.byte() % 9, rng.byte() % 3, rng.byte() % 3, rng.byte()];
                record(sub, [rng.byte(), rng.byte()], code)
            })
            .collect();
        let mut message = model::message(sub, rng.byte(), &records);
        let place = rng.below(most);
        let codes: Vec<Code> = (0..8)
            .map(|_| [rng.byte() % 10, rng.byte() % 3, rng.byte() % 3])
            .collect();
        bench.look_ups(sub, &message, &records, &codes);
        let mut handed = handed(&records, rng.byte().max(1));
        bench.written_listing(sub, rng.byte(), &handed);
        if let Some(byte) = handed.get_mut(7 * place) {
            *byte = rng.byte() % 2;
            bench.written_listing(sub, rng.byte(), &handed);
        }
        if rng.once_in(4) {
            let place = rng.below(message.len());
            message[place] = rng.byte();
            let own = model::index(&records);
            bench.look_up(sub, &message, &own, codes[0]);
        }
        if rng.once_in(4) {
            message.pop();
        }
        bench.listing(sub, &message, &[0, place]);
    }
}
