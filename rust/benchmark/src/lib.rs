//! How fast the library's calls are, against the same work written in safe Rust.
//!
//! [`yardstick`] has the calls, once, over a [`state`] (an ordinary struct, or the library's words) and a [`soundness`] test;
//! [`device`] puts the library and the yardsticks behind one trait. [`cases`] are the rows of the tables, [`measure`] times them
//! and [`report`] prints them; [`million`] times State stores in long runs, and [`stack`] measures how deep the library's calls
//! go. [`players`] play logs by the library, by a yardstick and by the model. [`messages`] times the reader of the old server's
//! messages, beside [`plain_reader`], and [`server_messages`] the server's side, beside [`plain_server`].

#![deny(unsafe_code)]

pub mod cases;
pub mod device;
pub mod measure;
pub mod messages;
pub mod million;
pub mod plain_reader;
pub mod plain_server;
pub mod players;
pub mod report;
pub mod rules;
pub mod server_messages;
pub mod soundness;
#[allow(unsafe_code)]
pub mod stack;
pub mod state;
pub mod yardstick;
