//! How many copies of each loop the program has.

/// Whether each loop stands twice, so that each call has two call sites at least. `bench/ops`
/// builds the program once each way.
pub const TWO: bool = false;

/// Calls a loop, at the site that the words pick where there are two.
macro_rules! at_site {
    ($second:expr, $name:ident[$($kind:ty),*]($($with:expr),* $(,)?)) => {
        if crate::at_site::TWO && $second {
            $name::<$($kind,)* 1>($($with),*)
        } else {
            $name::<$($kind,)* 0>($($with),*)
        }
    };
}

pub(crate) use at_site;
