//! The program as its users meet it: it is run, and what it prints, the status it ends with and the files it
//! leaves are looked at. Which sentences are due is read from include/bowlinette.h, which bytes are due is asked
//! of the reference.

mod support;

mod damaged;
mod disk;
mod files;
mod ink;
mod outputs;
mod pallet;
mod remarks;
mod streams;
mod usage;
mod week;
mod wiped;
