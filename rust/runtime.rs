//! What the tests use of Rattle's standard library and Rust's hasn't: a handle, and strings and lists that may be refused.

macro_rules! format {
    (in $memory:expr; $($rest:tt)*) => { Ok::<String, crate::runtime::Fail>(::std::format!($($rest)*)) };
}

macro_rules! vec {
    (in $memory:expr; $($rest:tt)*) => { Ok::<_, crate::runtime::Fail>(::std::vec![$($rest)*]) };
}

/// What a program may do.
pub struct HostRuntime;

/// Memory.
#[derive(Clone, Copy)]
pub struct Global;

/// Why a test stopped.
#[derive(Debug)]
pub struct Fail;

/// Who may stop the program.
pub trait Abort {}

impl Abort for HostRuntime {}

impl HostRuntime {
    /// The memory of the program.
    pub fn alloc(&self) -> Global {
        Global
    }
}
