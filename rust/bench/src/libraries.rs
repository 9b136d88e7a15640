//! The library's functions as C calls them: today's, which the crate
//! `zunidelo` links, and those of the archive of an earlier commit, where one
//! is linked as well (`build.rs`).

#![allow(unsafe_code)]

/// A report; one of four numbers has a 0 more.
pub type Report = [u64; 5];

/// What a function returns, and its report.
pub type Answer = (u32, Report);

pub trait Function: Copy + Sync + 'static {
    const TODAY: Self;

    /// Nothing where no earlier archive is linked, or it has no such function.
    const BEFORE: Option<Self>;

    /// Today's, then the earlier one.
    fn linked() -> impl Iterator<Item = Self> {
        [Self::TODAY].into_iter().chain(Self::BEFORE)
    }
}

/// A function of the header: its type, today's, and the earlier one.
macro_rules! function {
    ($name:ident, $symbol:literal, ($($parameter:ty),*)) => {
        #[derive(Clone, Copy)]
        pub struct $name(unsafe extern "C" fn($($parameter),*) -> u32);

        impl Function for $name {
            const TODAY: $name = {
                unsafe extern "C" {
                    #[link_name = $symbol]
                    fn today($(_: $parameter),*) -> u32;
                }
                $name(today)
            };

            #[cfg(before = $symbol)]
            const BEFORE: Option<$name> = {
                unsafe extern "C" {
                    #[link_name = concat!("before_", $symbol)]
                    fn before($(_: $parameter),*) -> u32;
                }
                Some($name(before))
            };

            #[cfg(not(before = $symbol))]
            const BEFORE: Option<$name> = None;
        }
    };
}

function!(Check, "zunidelo_check", (*const u8, usize, *mut u8, usize, *mut u64));
function!(Lookup, "zunidelo_lookup", (*const u8, usize, u64, u64, *mut u64));
function!(Clauses, "zunidelo_clauses", (*const u8, usize, *mut i32, usize, *mut u64));

impl Check {
    pub fn call(self, query: &[u8], answer: &mut [u8]) -> Answer {
        let mut report = [0; 5];
        // SAFETY: each pointer is of a slice or array that is borrowed for the
        // whole call, with its own length, and the two that are written through
        // are borrowed alone; the report has no less room than the header asks.
        let returned = unsafe {
            (self.0)(
                query.as_ptr(),
                query.len(),
                answer.as_mut_ptr(),
                answer.len(),
                report.as_mut_ptr(),
            )
        };
        (returned, report)
    }
}

impl Lookup {
    pub fn call(self, query: &[u8], array: u64, index: u64) -> Answer {
        let mut report = [0; 5];
        // SAFETY: as for `Check`.
        let returned =
            unsafe { (self.0)(query.as_ptr(), query.len(), array, index, report.as_mut_ptr()) };
        (returned, report)
    }
}

impl Clauses {
    pub fn call(self, query: &[u8], numbers: &mut [i32]) -> Answer {
        let mut report = [0; 5];
        // SAFETY: as for `Check`; the length counts numbers, not bytes.
        let returned = unsafe {
            (self.0)(
                query.as_ptr(),
                query.len(),
                numbers.as_mut_ptr(),
                numbers.len(),
                report.as_mut_ptr(),
            )
        };
        (returned, report)
    }
}
