//! LE packets: reading.

use super::{row, Row};
use crate::agree;
use crate::library;
use crate::made;
use crate::plain::le;
use crate::timing::{best, reading};
use random::prng::Prng;
use std::hint::black_box;

/// Packets of differing lengths that are read one after another.
const PACKETS: usize = 64;

/// The pseudo-header of each packet.
pub fn all() -> Vec<Row> {
    let mut prng = Prng::new(1);
    let packets: Vec<_> = (0..PACKETS).map(|_| made::le_packet(&mut prng)).collect();
    packets.iter().for_each(|packet| agree::le::input(packet));
    let ours = || {
        for packet in &packets {
            black_box(&library::le_read(black_box(packet)));
        }
    };
    let plain = || {
        for packet in &packets {
            let _ = black_box(&le::read(black_box(packet)));
        }
    };
    let costs = best(PACKETS, [reading(ours), reading(plain)]);
    vec![row("LE read", None, PACKETS, costs)]
}
