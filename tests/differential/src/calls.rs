//! A call that writes into a lent buffer: its answer, every byte written, and every byte that must stay.

use crate::tally::Tally;

/// What a call has to write, or the number of the documents' refusal.
pub type Asked<'a> = Result<&'a [u8], i64>;

/// How many places behind the buffer are looked at.
const BEHIND: usize = 16;

/// A call with a buffer of `len` places: its answer, the buffer, and what lies behind it. `might` is what could come
/// there, also by the mistake of a call that has to refuse.
pub fn compare_call(
    tally: &mut Tally,
    what: impl Fn() -> String,
    asked: Asked,
    might: &[u8],
    len: usize,
    call: impl FnOnce(&mut [u8]) -> i64,
) {
    let (answer, written) = match asked {
        Ok(bytes) if bytes.len() <= len => (bytes.len() as i64, bytes),
        Ok(_) => (-2, &[][..]),
        Err(number) => (-number, &[][..]),
    };
    // before the call each place has the complement of the byte that might come there, so that each write of it
    // shows; where it is not known what might come, a byte that goes by the place
    let mut wanted: Vec<u8> = (0..len + BEHIND).map(|i| 0x55 ^ i as u8).collect();
    for (place, byte) in wanted.iter_mut().zip(might) {
        *place = !byte;
    }
    let mut places = wanted.clone();
    let ours = call(&mut places[..len]);
    wanted[..written.len()].copy_from_slice(written);
    let what = || format!("{}, {len} places", what());
    tally.same(|| format!("the answer of {}", what()), answer, ours);
    tally.same_bytes(what, &wanted, &places);
}
