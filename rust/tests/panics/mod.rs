//! What a call panics with, and at which place.

use std::cell::RefCell;
use std::panic::{catch_unwind, set_hook};
use std::sync::Once;

thread_local! {
    /// The file that the last panic of this thread names.
    static PLACE: RefCell<String> = RefCell::default();
}
static HOOK: Once = Once::new();

/// That file.
pub fn place() -> String {
    PLACE.with(|it| it.borrow().clone())
}

/// What a call panics with; `Err` has what it returns where it doesn't.
pub fn message<T>(call: impl FnOnce() -> T + std::panic::UnwindSafe) -> Result<String, T> {
    HOOK.call_once(|| {
        set_hook(Box::new(|it| {
            PLACE.with(|place| *place.borrow_mut() = it.location().map_or("", |it| it.file()).to_string());
            println!("{it}");
        }));
    });
    match catch_unwind(call) {
        Ok(answer) => Err(answer),
        Err(words) => Ok(match words.downcast_ref::<String>() {
            Some(words) => words.clone(),
            None => words.downcast_ref::<&str>().unwrap_or(&"").to_string(),
        }),
    }
}

/// Whether each call panics with these words, in every build. A release build needn't name the place of a short one.
macro_rules! panic_with {
    ($words:expr; $($call:expr),* $(,)?) => {$(
        assert_eq!(message(|| { let _ = $call; }), Ok($words.to_string()), "{}", stringify!($call));
        assert!(place() == file!() || SHORT.iter().any(|it| *it == $words) && !cfg!(debug_assertions), "{}", stringify!($call));
    )*};
}

/// Whether each call panics with these words in a debug build, and returns in a release build: this, where it is given.
macro_rules! panic_in_debug_with {
    ($words:expr; $($call:expr => $answer:expr),+ $(,)?) => {$(
        let wanted = if cfg!(debug_assertions) { Ok($words.to_string()) } else { Err($answer) };
        assert_eq!(message(|| $call), wanted, "{}", stringify!($call));
        if cfg!(debug_assertions) {
            assert_eq!(place(), file!(), "{}", stringify!($call));
        }
    )*};
    ($words:expr; $($call:expr),+ $(,)?) => {$(
        let wanted = if cfg!(debug_assertions) { Some($words.to_string()) } else { None };
        assert_eq!(message(|| $call).ok(), wanted, "{}", stringify!($call));
        if cfg!(debug_assertions) {
            assert_eq!(place(), file!(), "{}", stringify!($call));
        }
    )*};
}

/// The words of short calls.
pub const SHORT: [&str; 3] = [MODULUS, DIVISOR, "the divisor must have an inverse modulo m"];
pub const MODULUS: &str = "the modulus must be at least 1";
pub const DIVISOR: &str = "the divisor must be at least 1";
