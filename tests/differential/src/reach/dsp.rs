//! The private parts of dsp.rs that the driver asks for.

use super::NoiseStream;

pub(crate) fn stream(seed: u64, counter: u64) -> NoiseStream {
    NoiseStream { seed, counter }
}

pub(crate) fn seed_of(s: &NoiseStream) -> u64 {
    s.seed
}

pub(crate) fn counter_of(s: &NoiseStream) -> u64 {
    s.counter
}

pub(crate) fn next_u64(s: &mut NoiseStream) -> u64 {
    s.next_u64()
}
