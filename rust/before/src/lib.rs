/*!
The C functions of an earlier static library, with the names and parameters of `watcher::raw`.

`build.rs` says which library that is, and makes the source of this crate from that of `watcher::raw`.
*/

// The functions here have the parameters that the C functions have.
#![allow(clippy::too_many_arguments)]

include!(concat!(env!("OUT_DIR"), "/raw.rs"));
