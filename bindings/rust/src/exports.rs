//! How an exported function of the library is declared and called: both are made of one line, which has its parameters as the library's
//! source has them. All that is unsafe stands here.

/// Makes a function of each line:
///
/// ```text
/// pub fn NAME(PARAMETER: TYPE, ..) -> ANSWER = READER(NUMBER);
/// ```
///
/// It calls `boltraven_NAME`, which answers a NUMBER, and READER makes the ANSWER of that number. `tests/exports.rs` compares the names,
/// parameters and numbers with the library's sources.
macro_rules! exports {
    ($($(#[$attribute:meta])* pub fn $name:ident($($parameters:tt)*) -> $answer:ty = $reader:ident($number:ty);)*) => {
        $(export! { { $(#[$attribute])* $name, $answer, $reader, $number } [] [] [] $($parameters)*, })*
    };
}

/// Takes the parameters one by one, and gathers three lists: the parameters of the Rust function, those of the exported function, and what
/// is passed to it. A slice goes as an address and a number of elements, which are good for the call, as every Rust slice's are.
macro_rules! export {
    // A slice that is read.
    ($line:tt [$($taken:tt)*] [$($declared:tt)*] [$($passed:tt)*] $one:ident: &[$of:ty], $($rest:tt)*) => {
        export! { $line [$($taken)* $one: &[$of],] [$($declared)* *const $of, usize,] [$($passed)* $one.as_ptr(), $one.len(),] $($rest)* }
    };
    // A slice that may be written.
    ($line:tt [$($taken:tt)*] [$($declared:tt)*] [$($passed:tt)*] $one:ident: &mut [$of:ty], $($rest:tt)*) => {
        export! {
            $line [$($taken)* $one: &mut [$of],] [$($declared)* *mut $of, usize,] [$($passed)* $one.as_mut_ptr(), $one.len(),] $($rest)*
        }
    };
    // One number that may be written, by its address alone.
    ($line:tt [$($taken:tt)*] [$($declared:tt)*] [$($passed:tt)*] $one:ident: &mut $of:ty, $($rest:tt)*) => {
        export! { $line [$($taken)* $one: &mut $of,] [$($declared)* *mut $of,] [$($passed)* $one,] $($rest)* }
    };
    // A number.
    ($line:tt [$($taken:tt)*] [$($declared:tt)*] [$($passed:tt)*] $one:ident: $of:ty, $($rest:tt)*) => {
        export! { $line [$($taken)* $one: $of,] [$($declared)* $of,] [$($passed)* $one,] $($rest)* }
    };
    // None is left.
    (
        { $(#[$attribute:meta])* $name:ident, $answer:ty, $reader:ident, $number:ty }
        [$($taken:tt)*] [$($declared:ty,)*] [$($passed:expr,)*] $(,)?
    ) => {
        $(#[$attribute])*
        pub fn $name($($taken)*) -> $answer {
            extern "C" {
                #[link_name = concat!("boltraven_", stringify!($name))]
                fn exported($(_: $declared),*) -> $number;
            }
            $reader(unsafe { exported($($passed),*) })
        }
    };
}

pub(crate) use {export, exports};
