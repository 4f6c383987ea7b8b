//! Writes to so many bytes of new memory, and ends. The host of a virtual machine gives memory that was never used, or
//! that was given back, far slower than the machine itself does; afterwards it is there.

use std::env::args;
use std::hint::black_box;
use std::process::ExitCode;

fn main() -> ExitCode {
    let Some(bytes) = args().nth(1).and_then(|word| word.parse().ok()) else {
        eprintln!("usage: touch BYTES");
        return ExitCode::from(2);
    };
    black_box(vec![1u8; bytes]);
    ExitCode::SUCCESS
}
