//! The number of the interface, which is compared before the first call of the library.

use std::sync::atomic::{AtomicBool, Ordering};

use crate::raw;

/// The number of the interface that this crate is written for: `VEKTRID_ABI` of the C header.
///
/// The archive that a program links may be older or newer than this crate, and its calls could then
/// take other arguments. So the first call of the library asks it for its number and panics, in
/// words, where that is another one. Nothing of the library has run by then, and no input can bring
/// it about: which archive is linked is settled when the program is built.
pub const ABI: u32 = 5;

/// Whether the number has been compared. Every thread would find the same, so it does not matter
/// which of them sees this when.
static COMPARED: AtomicBool = AtomicBool::new(false);

/// Makes a call of the library, the first one after the comparison. Each `unsafe` block of the crate
/// that calls it stands in one of these.
#[inline]
pub(crate) fn call<T>(call: impl FnOnce() -> T) -> T {
    if !COMPARED.load(Ordering::Relaxed) {
        compare();
    }
    call()
}

#[cold]
fn compare() {
    // SAFETY: no pointer is passed.
    let number = unsafe { raw::vektrid_abi() };
    if let Some(words) = difference(number) {
        panic!("{words}");
    }
    COMPARED.store(true, Ordering::Relaxed);
}

/// What to say of an archive of another number.
fn difference(number: u32) -> Option<String> {
    (number != ABI).then(|| {
        format!(
            "the archive libvektrid.a has interface {number}, and this crate is for interface \
             {ABI}: run tools/archive in the repository that this crate is from, and build again"
        )
    })
}

#[cfg(test)]
mod tests {
    use super::*;

    #[test]
    fn archive_of_this_number_is_taken() {
        assert_eq!(difference(ABI), None);
        assert_eq!(call(|| 7), 7);
    }

    #[test]
    fn archive_of_another_number_is_refused_in_words() {
        for number in [0, ABI - 1, ABI + 1, u32::MAX] {
            let words = difference(number).unwrap();
            assert!(words.contains(&format!("has interface {number},")));
            assert!(words.contains(&format!("is for interface {ABI}: run tools/archive")));
        }
    }
}
