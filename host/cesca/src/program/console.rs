//! Where the program writes, and how it ends.

use super::failure::{Failure, Status};
use std::io::{self, BufWriter, StdoutLock, Write};
use std::process::ExitCode;

/// Standard output, and the worst status so far.
pub struct Console {
    out: BufWriter<StdoutLock<'static>>,
    status: Status,
}

impl Console {
    /// Standard output with nothing written, and a good status.
    pub fn new() -> Console {
        Console { out: BufWriter::new(io::stdout().lock()), status: Status::Good }
    }

    /// Makes the status this one, if it is worse.
    pub fn raise(&mut self, status: Status) {
        self.status = self.status.max(status);
    }

    /// Raises the status to a failure's, and tells of it on standard error.
    pub fn tell(&mut self, failure: &Failure) {
        self.raise(failure.status());
        // What was written comes first; if that fails, it fails again at the end and is told then.
        let _ = self.flush();
        if !failure.is_closed_pipe() {
            // Where standard error is closed, there is nobody to tell.
            let _ = writeln!(io::stderr(), "{failure}");
        }
    }

    /// Writes what is still to be written, and yields the status.
    pub fn end(mut self, outcome: Result<(), Failure>) -> ExitCode {
        let outcome = outcome.and_then(|()| self.flush().map_err(Failure::from));
        if let Err(failure) = outcome {
            self.tell(&failure);
        }
        ExitCode::from(self.status as u8)
    }
}

impl Write for Console {
    fn write(&mut self, bytes: &[u8]) -> io::Result<usize> {
        self.out.write(bytes)
    }

    fn flush(&mut self) -> io::Result<()> {
        self.out.flush()
    }
}
