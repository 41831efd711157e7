//! The command `bowlinette`, with a subcommand for each station. It reads files, calls the proved library, and
//! writes files: whatever is coded, built, sealed, tagged, opened, checked or read by tables, the library does. Its own
//! is to decode what a screen has read and to take the padding off.

mod args;
mod check_chain;
mod coding;
mod command;
mod explain;
mod failure;
mod files;
mod ink;
mod open;
mod pallet;
mod progress;
mod read;
mod refusals;
mod seal;
mod secret;
mod show;
pub mod sizes;
mod staging;
pub mod streams;
mod system;
pub mod works;

pub use command::run;
