//! The command line. See `wv --help`.

use std::process::ExitCode;

fn main() -> ExitCode {
    wv::run(std::env::args_os().skip(1).collect())
}
