//! Standard input and output of the program. Their errors are told; none passes for an empty input
//! or a written output.

use std::fmt::Display;
use std::fs::File;
use std::io::{Read, Write};
use std::os::fd::AsFd;
use std::sync::OnceLock;

/// A stream as a file: the handles of the standard library say nothing where a stream is closed, or
/// open the wrong way.
type Stream = OnceLock<std::io::Result<File>>;

static INPUT: Stream = OnceLock::new();
static OUTPUT: Stream = OnceLock::new();

fn taken(stream: &'static Stream, handle: impl AsFd) -> &'static std::io::Result<File> {
    stream.get_or_init(|| Ok(handle.as_fd().try_clone_to_owned()?.into()))
}

/// On the way to `main` the runtime opens /dev/null in the place of a closed stream, and nothing
/// tells the two apart afterwards. So both streams are taken before that.
#[cfg(target_os = "linux")]
#[used]
#[link_section = ".init_array"]
static BEFORE_THE_RUNTIME: extern "C" fn() = {
    extern "C" fn take() {
        let _ = taken(&INPUT, std::io::stdin());
        let _ = taken(&OUTPUT, std::io::stdout());
    }
    take
};

fn told(stream: &str, error: impl Display) -> String {
    format!("standard {stream}: {error}")
}

/// The whole of standard input.
pub fn input() -> Result<Vec<u8>, String> {
    let stream = taken(&INPUT, std::io::stdin()).as_ref();
    let mut file = stream.map_err(|error| told("input", error))?;
    let mut bytes = Vec::new();
    file.read_to_end(&mut bytes)
        .map_err(|error| told("input", error))?;
    Ok(bytes)
}

/// Writes all bytes to standard output; a closed one does for none.
pub fn output(bytes: &[u8]) -> Result<(), String> {
    if bytes.is_empty() {
        return Ok(());
    }
    let stream = taken(&OUTPUT, std::io::stdout()).as_ref();
    let mut file = stream.map_err(|error| told("output", error))?;
    file.write_all(bytes)
        .and_then(|()| file.flush())
        .map_err(|error| told("output", error))
}
