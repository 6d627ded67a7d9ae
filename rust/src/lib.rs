//! Vectors, bytes, strings, nested values and lists in trees, whose clones share memory until one of them is written to.
//!
//! [`EcoVec`], [`EcoBytes`] and [`EcoString`] have the names and signatures of the original crate `ecow`. What they do is
//! proved: the modules below `proved` are written from proved source, and this crate gives their calls the original's
//! signatures. `README.md` says what is proved, what one trusts, and what differs from the original.
//!
//! ```
//! use ecow::{EcoString, EcoVec, eco_vec};
//!
//! let first = eco_vec![1, 2, 3];
//! let mut second = first.clone(); // asks for no memory, and clones no element
//! second.push(4); // copies the elements into a block of its own
//! assert_eq!((first.len(), second.len()), (3, 4));
//!
//! let title = EcoString::from("Copies share memory");
//! assert_eq!(title.replace("memory", "a block"), "Copies share a block");
//! ```
//!
//! **Refusals.** A call ends as the original's: memory that is refused aborts the program, a length past 2^63 - 1 and an
//! index past the end panic. Beside it stands one whose name begins with `try_`. It answers an [`Error`], or a
//! [`Rejected`] that hands a value back, and leaves what it was called on as it was. Calls of [`Value`] answer errors
//! only.
//!
//! **Threads.** Owners are counted atomically. A vector is [`Send`] and [`Sync`] where its elements are both.

#![cfg_attr(not(feature = "std"), no_std)]
#![deny(missing_docs, unsafe_op_in_unsafe_fn)]

extern crate alloc;

#[macro_use]
mod traits;

mod error;
mod guards;
#[allow(
    dead_code,
    missing_docs,
    unused_imports,
    unused_variables,
    clippy::all,
    clippy::pedantic,
    reason = "it is written from another language's source, of which only a part is used here"
)]
#[rustfmt::skip]
mod proved;
#[cfg(feature = "serde")]
mod serde;
mod shim;

pub mod bytes;
pub mod string;
pub mod tree;
pub mod value;
pub mod vec;

pub use bytes::{EcoBytes, SmallBytes};
pub use error::{Error, Rejected};
pub use string::{EcoString, SmallText};
pub use tree::EcoTree;
pub use value::{Kind, Value};
pub use vec::EcoVec;
