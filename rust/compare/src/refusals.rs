//! The words of a refusal: the library's beside the binding's.
use crate::bench::{Bench, Writer};
use crate::tally::{Call, Rule};
use oracle::plain::Refusal;
use skrolvind::flat;

impl Bench {
    fn words(&mut self, number: u64) {
        let words = skrolvind::Refusal::meaning_of(number).map(Vec::from);
        let writer = Writer {
            call: Call::RefusalText,
            kind: 0,
            input: &|| format!("refusal {number}"),
            arguments: &Vec::new,
            bytes: &[],
            flat: |room: &mut [u8]| flat::refusal_text(number, room),
            bound: |_: &mut [u8]| None,
        };
        let wanted = words.ok_or(Refusal::new(11, 0, 0));
        self.beside_model(&writer, wanted, Rule::Words);
    }
}

/// Every number that has words, and some that have none; among them those that have some once they are cut.
pub fn words(bench: &mut Bench) {
    for number in (0..=40).chain([255, 256, 257, 0x1_0000_0001, u64::MAX]) {
        bench.words(number);
    }
}
