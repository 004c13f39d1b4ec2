//! The command-line tool `clearance`: see `clearance --help`.

use std::process::ExitCode;

fn main() -> ExitCode {
    clearance_tool::run(std::env::args_os().skip(1).collect())
}
