//! BTSnoop as it arrives: both give the same answers to every call.

use super::{damage, DAMAGED};
use crate::library;
use crate::made;
use crate::plain::stream::{Event, Stream, Taken};
use crate::plain::Refusal;
use random::prng::Prng;

/// An answer as the library gives it, without the state.
fn taken(answer: Result<Taken, Refusal>) -> library::Taken {
    let taken = match answer {
        Ok(taken) => taken,
        Err(refusal) => {
            return library::Taken {
                number: refusal.number.into(),
                place: refusal.place as u64,
                ..Default::default()
            }
        }
    };
    let mut row = library::Taken {
        kind: library::MORE,
        taken: taken.taken as u64,
        ..Default::default()
    };
    if !taken.part.is_empty() {
        row.part = (taken.taken - taken.part.len()) as u64;
        row.size = taken.part.len() as u64;
        row.position = taken.position.into();
    }
    match taken.event {
        Event::Nothing => {}
        Event::End => row.kind = library::END,
        Event::Datalink(datalink) => {
            row.kind = library::FILE_HEADER;
            row.datalink = datalink.into();
        }
        Event::Record { start, numbers } => {
            row.kind = library::VALUES;
            row.start = start;
            row.original = numbers.original_length.into();
            row.included = numbers.included_length.into();
            row.flags = numbers.flags.into();
            row.drops = numbers.cumulative_drops.into();
            row.time = numbers.time;
        }
    }
    row
}

/// The answer to the stream's end.
fn ended(answer: Result<(), Refusal>) -> library::Taken {
    let end = |()| Taken {
        taken: 0,
        part: &[],
        position: 0,
        event: Event::End,
    };
    taken(answer.map(end))
}

/// Both answer alike to a stream in chunks of lengths that are drawn, to its end, and to calls after it.
pub fn stream(input: &[u8], mut length: impl FnMut() -> usize) {
    let (mut state, mut plain) = (library::stream_fresh(), Stream::new());
    let (mut rest, mut over) = (input, false);
    while !rest.is_empty() && !over {
        let chunk = &rest[..rest.len().min(length())];
        let ours = library::stream_take(state, chunk);
        assert_eq!(ours.row(), taken(plain.take(chunk)).row());
        assert_eq!(ours.state.octets, plain.octets());
        state = ours.state;
        rest = &rest[ours.taken as usize..];
        over = ours.kind == library::REFUSED;
    }
    for _ in 0..2 {
        let ours = library::stream_end(state);
        assert_eq!(ours.row(), ended(plain.end()).row());
        state = ours.state;
        let ours = library::stream_take(state, input);
        assert_eq!(ours.row(), taken(plain.take(input)).row());
        assert_eq!(ours.state.octets, plain.octets());
    }
}

/// Both answer small streams alike, damaged ones mostly, cut anyhow.
pub fn damaged(prng: &mut Prng) {
    for _ in 0..DAMAGED {
        let size = 16 + prng.below(800);
        let mut input = made::capture(prng, size);
        damage(prng, &mut input);
        let bound = prng.pick(&[2, 3, 26, 60, 400, 2000]);
        stream(&input, || prng.below(bound));
    }
}
