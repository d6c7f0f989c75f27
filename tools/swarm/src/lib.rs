//! Swarms of BitTorrent peers in one process, in virtual time: what a rule of piece picking brings to those who follow it.

pub mod begun;
pub mod book;
pub mod choking;
mod download;
pub mod field;
#[cfg(feature = "libtorrent")]
pub mod libtorrent;
pub mod meter;
pub mod open;
pub mod ours;
pub mod page;
pub mod peer;
pub mod picture;
pub mod plain;
pub mod queue;
pub mod random;
pub mod report;
pub mod rule;
pub mod rules;
pub mod scenario;
pub mod setup;
pub mod swarm;
pub mod timed;
mod tracker;
mod upload;
