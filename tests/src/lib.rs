//! Tests of the release desk: its nine exported calls against independent programs in Rust.
//!
//! - `desk`: the calls by the package in bindings/rust.
//! - `plain`: an independent program for the eight calls on a site, with a fast timestep search.
//! - `pull`: a simple program for the route call, with a slow timestep search.
//! - `travel`: an independent program for the ninth call, the travel times.
//! - `literal`: the rules of docs/FORMATS.md, written as they read and slow.
//! - `literal_desk`: the eight calls on a site, on `literal`, over a board of any bytes.
//! - `plain_board`: the plain board of docs/FORMATS.md, on `literal`.
//! - `lent`: what is lent to a call, and the call made with any of these programs.
//! - `guarded`: areas between pages that nothing may touch.
//! - `gen`: seeded sites, boards, lights and calls.
//! - `worst`: sites on which a search takes long.
//! - `day`: what the day program must print.
//! - `c`: programs in C and C++ over the archive.
//! - `docs`: what the documents and the header say.
//! - `programs`: made-up commands that tests write and start.

pub mod c;
pub mod day;
pub mod desk;
pub mod docs;
pub mod four;
pub mod gen;
#[cfg(target_os = "linux")]
pub mod guarded;
pub mod lent;
pub mod literal;
pub mod literal_desk;
pub mod plain;
pub mod plain_board;
pub mod programs;
pub mod pull;
#[cfg(feature = "standin")]
pub mod standin;
pub mod travel;
pub mod worst;
