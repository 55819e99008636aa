//! The tool, run as its users run it and cut down as their machines do.

mod crash;
mod desk;
mod two;
