//! Vectors: what to read, write, check, pack and ask at each edge of the rules, each
//! with the reply that document 01 gives it, or a request of document 02.
//!
//! Messages and parts are put together here in the terms of document 01, and
//! every reply is written by hand in a table. Nothing that reads, writes, checks,
//! packs or asks has a part in that; tests then hold the second reading to the
//! tables, and the program crates `read_vectors`, `write_vectors` and
//! `cursor_vectors` hold the codec to both.
//!
//! * `read`, `write`, `check`, `pack`, `cursor`  the five tables;
//! * `messages`  messages, octet by octet;
//! * `edges`     edges that more than one table has;
//! * `octants`   the thinned octants, grids 37 to 44;
//! * `kinds`     Mercator, Lambert, Gaussian and polar stereographic grids;
//! * `lengths`   messages whose section lengths can be damaged one by one;
//! * `given`     what the writer and the packer are given;
//! * `files`     the files that the programs are run on.

pub mod check;
pub mod cursor;
mod edges;
mod files;
mod given;
mod kinds;
mod lengths;
pub(crate) mod messages;
mod octants;
pub mod pack;
pub mod read;
pub mod write;
