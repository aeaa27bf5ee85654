// Not of the crate: whether a NaN would have come out. Only the lines of Q-10.patch set the mark, so in the
// crate as it is nobody does.
use crate::error::{Details, Error};
use std::cell::Cell;

thread_local! {
    static NAN: Cell<bool> = const { Cell::new(false) };
}

/// The error for a NaN that would come out, here or in a trial that nobody hears of; sets the mark.
pub(crate) fn nan() -> Error {
    NAN.set(true);
    Details::NanResult.into()
}

/// Whether the mark was set since this was last asked.
pub fn take_nan() -> bool {
    NAN.take()
}
