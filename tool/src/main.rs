//! The program `hondivole`: see the crate `hondivole_tool`.

use std::process::ExitCode;

fn main() -> ExitCode {
    hondivole_tool::run(std::env::args_os().skip(1).collect())
}
