//! Answers a script on standard input, as `dipq` does.

use bench::script::{self, LIMIT};
use std::io::{self, Read};
use std::process::ExitCode;

fn read_script() -> Result<Vec<u8>, &'static str> {
    let mut script = Vec::new();
    let read = io::stdin().take(LIMIT as u64 + 1).read_to_end(&mut script);
    match read {
        Err(_) => Err("read fault"),
        Ok(_) if script.len() > LIMIT => Err("script too long"),
        Ok(_) => Ok(script),
    }
}

fn answer() -> Result<u64, &'static str> {
    script::run(read_script()?, io::stdout().lock()).map_err(|_| "write fault")
}

fn main() -> ExitCode {
    if std::env::args_os().len() > 1 {
        eprintln!("plain: usage: plain");
        return ExitCode::from(2);
    }
    match answer() {
        Ok(0) => ExitCode::SUCCESS,
        Ok(_) => ExitCode::from(1),
        Err(fault) => {
            eprintln!("plain: {fault}");
            ExitCode::from(3)
        }
    }
}
