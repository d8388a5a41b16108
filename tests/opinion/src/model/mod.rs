//! The desk of document 01, computed with plain lists: a second opinion.
//!
//! Written from document 01 and the readings taken of it alone, and not from the text of the
//! rules in crates/rules: that is what makes it worth comparing them.  It has its own shape too.
//! A file is a queue of the blocks that still hold a record, each with its unread records; timers
//! are due times on one clock.  Shares and record buffers are raw bytes: a call writes what the
//! rules have it write, and all else stays what it was.

pub mod accessor;
mod buffers;
mod close;
mod control;
pub mod count;
pub mod desk;
pub mod entries;
mod event;
pub mod file;
pub mod geometry;
pub mod limits;
pub mod line;
mod lists;
pub mod loading;
mod look;
mod memories;
pub mod notes;
mod open;
pub mod record;
pub mod request;
mod ring;
pub mod segment;
mod settle;
pub mod sheet;
mod soundness;
pub mod status;
mod transfer;
pub mod unread;
mod waiting;
pub mod word;
