//! Places in an output, of every kind.

use random::prng::Prng;

/// Places and numbers near the largest and at other powers of two.
pub const HUGE: [usize; 12] = [
    usize::MAX,
    usize::MAX - 1,
    usize::MAX - 7,
    usize::MAX - 15,
    usize::MAX - 16,
    usize::MAX - 22,
    usize::MAX - 23,
    usize::MAX - 24,
    usize::MAX - 27,
    1 << 63,
    (1 << 63) - 1,
    (1 << 32) + 16,
];

/// A place in an output for a part of a length, and the output's length.
pub fn room(prng: &mut Prng, length: usize) -> (usize, usize) {
    let place = prng.below(40);
    let exact = place + length;
    match prng.below(8) {
        0 | 1 => (place, exact),
        2 => (place, exact - 1),
        3 => (place, exact + 1),
        4 => (place + 1 + prng.below(9), place),
        5 => (prng.pick(&HUGE), exact),
        6 => (0_usize.wrapping_sub(1 + prng.below(length + 2)), exact),
        _ => (place, exact + prng.below(40)),
    }
}
