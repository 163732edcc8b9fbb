//! How an exported function of the library is called.

/// Calls an exported function with its arguments in order: values as they are, slices to read or to write as pointer and length. Each slice is
/// the one that its pointer and length name, and those written are lent to this call alone.
macro_rules! lend {
    ($f:path; $($arguments:tt)*) => { lend!(@ $f; () $($arguments)*) };
    (@ $f:path; ($($done:tt)*)) => { unsafe { $f($($done)*) } };
    (@ $f:path; ($($done:tt)*) value [$($x:expr),*] $($rest:tt)*) => { lend!(@ $f; ($($done)* $($x,)*) $($rest)*) };
    (@ $f:path; ($($done:tt)*) read [$($x:expr),*] $($rest:tt)*) => {
        lend!(@ $f; ($($done)* $($x.as_ptr(), $x.len(),)*) $($rest)*)
    };
    (@ $f:path; ($($done:tt)*) write [$($x:expr),*] $($rest:tt)*) => {
        lend!(@ $f; ($($done)* $($x.as_mut_ptr(), $x.len(),)*) $($rest)*)
    };
}
pub(crate) use lend;
