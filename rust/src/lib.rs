//! ISO 8583:1987 messages: a safe binding of Obolchime, whose routines are written in Rattle and proved to answer exactly what their
//! definitions say, on every input. [What that covers](#what-is-proved) is said below.
//!
//! ```
//! let bytes = b"0800\x20\0\0\0\0\0\0\x00000000 and what comes after it";
//! let message = obolchime::read(bytes)?;
//! assert_eq!(message.mti(), "0800");
//! assert_eq!(message.get(3), Some(&b"000000"[..]));
//! assert_eq!(message.used(), 18);
//! # Ok::<(), obolchime::Refusal>(())
//! ```
//!
//! | to | call |
//! |---|---|
//! | read a message, and see its fields | [`read`], [`Message`] |
//! | write it back to the byte, or with short fixed contents padded | [`write_exact`], [`write_clean`], with [`Notes`] |
//! | carry it over to a bank that talks packed, and back | [`pack`], [`unpack`] |
//! | find a field by notes that come from elsewhere | [`look_up`] |
//! | check a field, a message, a PAN, a date, a time | [`check`] |
//! | convert BCD, EBCDIC, length indicators | [`bcd`], [`ebcdic`], [`length`] |
//!
//! A call that refuses says why in a [`Refusal`]: a number, a field and a position, and prints as plain words. It changes no buffer.
//!
//! The static library is built by `bridge/library` at the root of the repository; `OBOLCHIME_LIB_DIR` names another folder that holds it.
//!
//! # What is proved
//!
//! The library's source, on its language's abstract machine. Not proved are the compiler's back end, which makes machine code of it, and
//! this crate, which is thin Rust over it: the calls are in one small module, and the walk over the notes in [`Message::fields`] and the
//! making of them by [`Notes`] are plain safe Rust.

#![deny(missing_docs, unsafe_code)]
// a cast can cut a number in silence
#![deny(clippy::as_conversions)]

mod ffi;
mod link;
mod message;
mod notes;
mod refusal;

pub mod bcd;
pub mod check;
pub mod ebcdic;
pub mod length;

pub use link::{pack, unpack, Translated};
pub use message::{read, Field, Fields, Message};
pub use notes::{look_up, write_clean, write_exact, Cleaned, FieldSet, NotePart, Notes, TooLarge, NOTES_ROOM};
pub use refusal::{number, Refusal, Within};
