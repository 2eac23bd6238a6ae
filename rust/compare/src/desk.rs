//! Requests for the desk: every format byte with every pair of sizes whose halves tell them apart or not.
use crate::bench::Bench;

/// Equal in their low halves, in their high halves, in both and in neither.
const SIZES: [u128; 6] = [0, 1, 1 << 64, (1 << 64) + 1, u128::MAX - 1, u128::MAX];

/// Each kind and two bytes that are none, each format byte, each pair of sizes: whole, with a byte left over, and cut by one.
pub fn requests(bench: &mut Bench) {
    for kind in 0..=7 {
        for format in 0..=255 {
            for uncompressed in SIZES {
                for compressed in SIZES {
                    request(
                        bench,
                        &[kind, 0, 1, b'a', format],
                        [uncompressed, compressed],
                    );
                }
            }
        }
    }
}

fn request(bench: &mut Bench, front: &[u8], sizes: [u128; 2]) {
    let sizes = sizes.map(u128::to_be_bytes).concat();
    let message = [front, &[16], &sizes, &[0x5A]].concat();
    for cut in 0..=2 {
        bench.judged(&message[..message.len() - cut]);
    }
}
