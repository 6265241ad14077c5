//! The model's tests. Expected values are written by hand from document 01 and the
//! requests of document 02 that are built; the places of records in the tables are
//! computed here a second time.

mod cases;
mod config;
mod events;
mod grouping;
mod limits;
mod messages;
mod presence;
mod promises;
mod refusals;
mod replay;
mod replay_bad;
mod support;
mod words;
