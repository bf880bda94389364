//! Declares in Rust code which values are secret. `cargo blade` reads the declarations; any other build
//! ignores them. Licence: public domain (CC0).
//!
//! ```
//! use blade_labels::{public_result, secret_memory, secret_param};
//!
//! secret_param!(lookup, index);
//! public_result!(lookup);
//! secret_memory!();
//!
//! #[no_mangle]
//! pub extern "C" fn lookup(index: u32) -> u32 {
//!     index & 1
//! }
//! ```
//!
//! The macros stand where items stand. A function is named by its path. The path has to lead to one function:
//! generic functions, trait methods and closures are refused, since the compiler makes several functions of
//! them, or none.
//!
//! Each macro makes a record: a static that holds a pointer to the function and a text. `cargo blade` finds
//! the function by this pointer, not by its name, and takes the record out before the module is linked. A
//! label whose function is inlined, dropped or unknown is an error of `cargo blade`.
#![no_std]
#![forbid(unsafe_op_in_unsafe_fn)]

/// What `cargo blade` reads. Only the macros make it.
#[doc(hidden)]
#[cfg(all(blade, target_arch = "wasm32"))]
#[repr(C)]
pub struct FunctionRecord<const SIZE: usize> {
    function: *const (),
    text: [u8; SIZE],
}

#[cfg(all(blade, target_arch = "wasm32"))]
unsafe impl<const SIZE: usize> Sync for FunctionRecord<SIZE> {}

#[cfg(all(blade, target_arch = "wasm32"))]
impl<const SIZE: usize> FunctionRecord<SIZE> {
    #[doc(hidden)]
    pub const fn new(function: *const (), text: &str) -> Self {
        FunctionRecord { function, text: bytes_of(text) }
    }
}

/// The bytes of a text, which stand in a record themselves and not behind a pointer.
#[doc(hidden)]
#[cfg(all(blade, target_arch = "wasm32"))]
pub const fn bytes_of<const SIZE: usize>(text: &str) -> [u8; SIZE] {
    let (mut bytes, mut at) = ([0; SIZE], 0);
    while at < SIZE {
        bytes[at] = text.as_bytes()[at];
        at += 1;
    }
    bytes
}

/// Declares a parameter of a function secret: `secret_param!(function, parameter);`. The parameter is given by
/// its name or by its number, from 0.
#[macro_export]
macro_rules! secret_param {
    ($($part:ident)::+, $parameter:ident $(,)?) => {
        $crate::__record! { "secret-param", $($part)::+, stringify!($parameter) }
    };
    ($($part:ident)::+, $parameter:literal $(,)?) => {
        $crate::__record! { "secret-param", $($part)::+, stringify!($parameter) }
    };
    ($($other:tt)*) => {
        compile_error!(concat!(
            "secret_param!(", stringify!($($other)*), "): write secret_param!(function, parameter), with the \
             path of a function and the name or the number of a parameter. A generic function, a trait method \
             or a closure has no code of its own: label a function that calls it"));
    };
}

/// Demands that the result of a function doesn't depend on secrets: `public_result!(function);`.
#[macro_export]
macro_rules! public_result {
    ($($part:ident)::+ $(,)?) => {
        $crate::__record! { "public-result", $($part)::+, "0" }
    };
    ($($other:tt)*) => {
        compile_error!(concat!(
            "public_result!(", stringify!($($other)*), "): write public_result!(function), with the path of a \
             function. A generic function, a trait method or a closure has no code of its own: label a \
             function that calls it"));
    };
}

/// Declares the module's whole memory secret: everything behind references and pointers, statics, and the
/// frames of functions.
#[macro_export]
#[cfg(all(blade, target_arch = "wasm32"))]
macro_rules! secret_memory {
    () => {
        const _: () = {
            const TEXT: &str = concat!("blade-label 1\tsecret-memory\t0\t-\t", file!(), ":", line!(), "\n");
            #[used]
            static RECORD: [u8; TEXT.len()] = $crate::bytes_of(TEXT);
        };
    };
}

/// Declares the module's whole memory secret: everything behind references and pointers, statics, and the
/// frames of functions.
#[macro_export]
#[cfg(not(all(blade, target_arch = "wasm32")))]
macro_rules! secret_memory {
    () => {};
}

#[doc(hidden)]
#[macro_export]
#[cfg(all(blade, target_arch = "wasm32"))]
macro_rules! __record {
    ($kind:literal, $function:path, $which:expr) => {
        const _: () = {
            const TEXT: &str = concat!(
                "blade-label 1\t", $kind, "\t", stringify!($function), "\t", $which, "\t", file!(), ":", line!(), "\n"
            );
            #[used]
            static RECORD: $crate::FunctionRecord<{ TEXT.len() }> =
                $crate::FunctionRecord::new($function as *const (), TEXT);
        };
    };
}

#[doc(hidden)]
#[macro_export]
#[cfg(not(all(blade, target_arch = "wasm32")))]
macro_rules! __record {
    ($kind:literal, $function:path, $which:expr) => {};
}
