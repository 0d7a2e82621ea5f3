//! Runs the script on standard input, or each file named, in order, and prints what it answers.

use std::io::{self, Read as _, Write as _};
use std::process::ExitCode;

fn main() -> ExitCode {
    let mut script = Vec::new();
    let mut code = ExitCode::SUCCESS;
    let names: Vec<_> = std::env::args_os().skip(1).collect();
    let mut outs = Vec::new();
    if names.is_empty() {
        if let Err(error) = io::stdin().read_to_end(&mut script) {
            eprintln!("reference: standard input: {error}");
            return ExitCode::FAILURE;
        }
        outs.push(reference::script::run(&script));
    }
    for name in names {
        match std::fs::read(&name) {
            Ok(script) => outs.push(reference::script::run(&script)),
            Err(error) => {
                eprintln!("reference: {}: {error}", name.to_string_lossy());
                code = ExitCode::FAILURE;
            }
        }
    }
    if io::stdout().write_all(outs.concat().as_bytes()).is_err() {
        return ExitCode::FAILURE;
    }
    code
}
