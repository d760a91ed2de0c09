//! The command `seglink`: hands its arguments and streams to the library, and ends with its exit status.
use command::{run, Streams};
use std::env;
use std::ffi::OsString;
use std::io::{self, BufWriter, Write};
use std::process;

fn main() {
    let arguments: Result<Vec<String>, OsString> = env::args_os().skip(1).map(OsString::into_string).collect();
    let status = match arguments {
        Ok(arguments) => {
            let mut output = BufWriter::new(io::stdout().lock());
            let mut streams = Streams { input: &mut io::stdin().lock(), output: &mut output, errors: &mut io::stderr() };
            let status = run(&arguments, &mut streams);
            // what is still to be written may fail too
            output.flush().map_or(3, |()| status)
        }
        Err(word) => {
            eprintln!("seglink: an argument is no text: {}", word.to_string_lossy());
            2
        }
    };
    process::exit(status);
}
