//! Both on the same bytes: what is read, written anew, and what is left; or the error, which has the same words.
use std::fmt::Debug;

/// A value written anew and how many bytes follow it, or the error.
type Answer = Result<(Vec<u8>, usize), String>;

fn told<E: Debug>(answer: Result<(Vec<u8>, usize), E>) -> Answer {
    answer.map_err(|error| format!("{error:?}"))
}

/// What one side answers to a message as each of its types.
macro_rules! side {
    ($side:ident, $($path:ident)::+) => {
        mod $side {
            use super::{Answer, told};
            use $($path)::+::*;

            fn answer<'a, T>(message: &'a [u8]) -> Answer
            where
                T: Decode<'a, Error = Error> + Encode<Error = Error>,
            {
                told(T::decode(message).and_then(|(value, tail)| {
                    let mut room = [0; 600];
                    let written = value.encode(&mut &mut room[..])?;
                    Ok((room[..written].to_vec(), tail.len()))
                }))
            }

            pub fn answers(message: &[u8]) -> [Answer; 15] {
                [
                    answer::<RequestFileTransferRequest>(message),
                    answer::<RequestFileTransferResponse>(message),
                    answer::<RoutineControlRequest>(message),
                    answer::<RoutineControlResponse>(message),
                    answer::<NamePayload>(message),
                    answer::<SentDataPayload>(message),
                    answer::<SizePayload>(message),
                    answer::<FileSizePayload>(message),
                    answer::<DirSizePayload>(message),
                    answer::<PositionPayload>(message),
                    answer::<DtcRecord>(message),
                    answer::<DtcStatusMask>(message),
                    answer::<DtcSeverityMask>(message),
                    answer::<FunctionalGroupIdentifier>(message),
                    answer::<DtcStoredDataRecordNumber>(message),
                ]
            }
        }
    };
}

side!(original, oracle::itself);
side!(ours, skrolvind::uds_protocol);

fn same(message: &[u8]) {
    let (ours, wanted) = (ours::answers(message), original::answers(message));
    assert_eq!(ours, wanted, "on {message:02X?}");
}

#[test]
fn all_messages_of_up_to_two_bytes() {
    same(&[]);
    for a in 0..=255 {
        same(&[a]);
        for b in 0..=255 {
            same(&[a, b]);
        }
    }
}

#[test]
fn messages_of_three_to_six_chosen_bytes() {
    let chosen = [0, 1, 2, 4, 5, 6, 0x61, 0xC3, 0xFF];
    for len in 3..=6 {
        for number in 0..chosen.len().pow(len) {
            let places = (0..len).map(|place| number / chosen.len().pow(place) % chosen.len());
            let message: Vec<u8> = places.map(|place| chosen[place]).collect();
            same(&message);
        }
    }
}

/// Every mode with every width and names and block lengths of up to three bytes, cut at every place and lengthened.
#[test]
fn every_kind_and_width() {
    for mode in 0..=8 {
        for width in 0..=19 {
            for part in 0..=3 {
                let group = (1..).take(2 * usize::from(width) + 2);
                let group: Vec<u8> = group.map(|place: u8| place.wrapping_mul(0x3B)).collect();
                let name = vec![0x61; part.into()];
                let request = [&[mode, 0, part], &name[..], &[0x11, width], &group].concat();
                let response = [&[mode, part], &name[..], &[0x11, 0, width], &group].concat();
                for message in [request, response] {
                    for len in 0..=message.len() {
                        same(&message[..len]);
                    }
                }
            }
        }
    }
}
