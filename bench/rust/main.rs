//! Operations on windows of the Rust crate, each run as often as the words say, for callgrind to
//! count: `rust_ops SIDE OPERATION COUNT [second]`, with the words of the program in
//! bench/operations. With the feature `two` each loop stands twice in the program, as `second`
//! picks, so that each call of the crate has two call sites at least.

mod keep;
mod owned;
mod reading;
mod several;
mod small;
mod std_vec;
mod threads;
mod traits;
mod writing;

use arc_slice::layout::{ArcLayout, BoxedSliceLayout, RawLayout, VecLayout};
use std::process::ExitCode;

/// The layout of all tables but that of layouts: the default one of this repository.
pub type Usual = ArcLayout<true, true>;

/// Calls a loop, at the site that the word picks where there are two.
#[macro_export]
macro_rules! at_site {
    ($second:expr, $name:ident $([$($kind:ty),+])? ($($with:expr),* $(,)?)) => {{
        #[cfg(feature = "two")]
        if $second {
            $name::<$($($kind,)+)? 1>($($with),*)
        } else {
            $name::<$($($kind,)+)? 0>($($with),*)
        }
        #[cfg(not(feature = "two"))]
        {
            let _ = $second;
            $name::<$($($kind,)+)? 0>($($with),*)
        }
    }};
}

/// What the words ask for.
pub struct Words {
    /// What is run in a loop.
    pub operation: String,
    /// How often.
    pub count: usize,
    /// Whether the loop's second copy runs.
    pub second: bool,
}

/// Runs the words, and answers whether all was done.
fn run(side: &str, words: &Words) -> Option<()> {
    match side {
        "block" | "vector" | "buffer" | "static" => reading::run::<Usual>(side, words)
            .or_else(|| writing::run(side, words))
            .or_else(|| traits::run(words)),
        "arc" => reading::run::<RawLayout>(side, words),
        "boxed_block" | "boxed_vector" => reading::run::<BoxedSliceLayout>(&side[6..], words),
        "vec_block" | "vec_vector" => reading::run::<VecLayout>(&side[4..], words),
        "raw_block" | "raw_vector" => reading::run::<RawLayout>(&side[4..], words),
        "std" => std_vec::run(words),
        "owned" => owned::run(words),
        "several" => several::run(words),
        "inline" => small::run(&[42; 20], words),
        "small" => small::run(&[42; 128], words),
        _ => threads::run(side.strip_prefix("threads")?.parse().ok()?, words),
    }
}

fn main() -> ExitCode {
    let given: Vec<String> = std::env::args().skip(1).collect();
    let [side, operation, count, rest @ ..] = given.as_slice() else {
        return ExitCode::from(2);
    };
    let Ok(count) = count.parse() else {
        return ExitCode::from(2);
    };
    let words = Words {
        operation: operation.clone(),
        count,
        second: rest.first().is_some_and(|it| it == "second"),
    };
    ExitCode::from(if run(side, &words).is_some() { 0 } else { 1 })
}
