//! `moka-replay [file]` replays a script on the generated engine, from the file or from standard input.

use ravulemis::Global;
use ravulemis::replay::moka_replay::arguments::script_path;
use ravulemis::replay::moka_replay::replay::replay_opened;
use ravulemis::replay::moka_script::failure::{Failure, tell};
use std::ffi::OsString;
use std::fs::File;
use std::io::{BufWriter, stdin};
use std::mem::ManuallyDrop;
use std::os::fd::FromRawFd;
use std::process::ExitCode;

fn main() -> ExitCode {
    let mut err = std::io::stderr();
    let arguments: Result<Vec<String>, OsString> = std::env::args_os().map(OsString::into_string).collect();
    // SAFETY: it is open, and is not closed. Rust's own would write at the end what it could not write before.
    let out = ManuallyDrop::new(unsafe { File::from_raw_fd(1) });
    let mut buffer = BufWriter::new(&*out);
    // One that is not UTF-8 is a file that cannot be read.
    let path = arguments.map_err(|_| Failure::CannotRead);
    let status = match path.as_deref().map_err(|failure| *failure).and_then(script_path) {
        Ok(None) => replay_opened(Global, Ok(stdin()), &mut buffer, &mut err),
        Ok(Some(path)) => replay_opened(Global, File::open(path), &mut buffer, &mut err),
        Err(failure) => tell(&mut err, failure),
    };
    // What a refused write left is let go, and not written after all.
    let (_out, _unwritten) = buffer.into_parts();
    ExitCode::from(status)
}
