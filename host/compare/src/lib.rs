//! Compares the proved library with the reference, call by call.
//!
//! Each module uses only those above it in this list:
//! - [`random`]: the generator of numbers; [`hex`]: bytes as text, and a hash of them;
//! - [`make`]: the bytes of images, data objects and commands; [`stamp`]: those of stamps;
//!   [`extension`]: those of certificate extensions;
//! - [`view`]: what an image and a session hold;
//! - [`step`]: one step of a run, and what a side holds between two steps;
//! - [`card`], [`rights`], [`objects`], [`command`], [`moving`], [`bodies`], [`certificates`],
//!   [`index`]: made-up images, rights and sessions, data objects, commands, moves, bodies of record
//!   files, certificates to find, and calls of an index; [`cuts`]: commands that are cut;
//!   [`chains`]: commands that are sent in links;
//! - [`stamp_faults`], [`stamps`]: what may be wrong with a stamp, and made-up stamps to read;
//! - [`extension_faults`], [`extensions`]: the same of extensions to read rights from;
//! - [`follow`]: an index that is kept beside a card;
//! - [`line`]: a step and what comes of it;
//! - [`binary_scene`], [`chain_scene`], [`cut_scene`], [`index_scene`], [`stamp_scene`],
//!   [`extension_scene`], [`scene`]: the calls that every run begins with; [`extension_more`]: more of
//!   those that a run of rights alone begins with;
//! - [`sequence`]: the calls, in sequences on one card each;
//! - [`talk`]: commands for one card, each with the library's answer;
//! - [`binary_tally`], [`chain_tally`], [`cut_tally`], [`sort`], [`index_tally`], [`stamp_sort`],
//!   [`stamp_tally`], [`extension_sort`], [`extension_tally`], [`tally`]: what sort of call of an
//!   index it is, of read of a stamp and of rights; how often each sort and each outcome occurred;
//! - [`sides`]: both implementations, side by side;
//! - [`sample`]: a sample of calls as data.

#![forbid(unsafe_code)]

pub mod binary_scene;
pub mod binary_tally;
pub mod bodies;
pub mod card;
pub mod certificates;
pub mod chain_scene;
pub mod chain_tally;
pub mod chains;
pub mod command;
pub mod cut_scene;
pub mod cut_tally;
pub mod cuts;
pub mod extension;
pub mod extension_faults;
pub mod extension_more;
pub mod extension_scene;
pub mod extension_sort;
pub mod extension_tally;
pub mod extensions;
pub mod follow;
pub mod hex;
pub mod index;
pub mod index_scene;
pub mod index_tally;
pub mod line;
pub mod make;
pub mod moving;
pub mod objects;
pub mod random;
pub mod rights;
pub mod sample;
pub mod scene;
pub mod sequence;
pub mod sides;
pub mod sort;
pub mod stamp;
pub mod stamp_faults;
pub mod stamp_scene;
pub mod stamp_sort;
pub mod stamp_tally;
pub mod stamps;
pub mod step;
pub mod talk;
pub mod tally;
pub mod view;
