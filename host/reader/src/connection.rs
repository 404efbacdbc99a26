//! The connection to the virtual reader.

use crate::fault::Fault;
use std::io::{self, Read, Write};
use std::net::{Ipv4Addr, TcpStream};
use std::os::linux::net::TcpStreamExt;

/// A connection that confirms what it reads at once.
///
/// vpcd sends the length of a message and then its bytes, and its system holds the bytes back
/// until the length is confirmed. Ours would wait 40 ms with that, in the hope of an answer to
/// send along; so each command would take so long.
#[derive(Debug)]
pub struct Connection(TcpStream);

impl Connection {
    /// The reader at a port of this machine.
    pub fn open(port: u16) -> Result<Self, Fault> {
        match TcpStream::connect((Ipv4Addr::LOCALHOST, port)) {
            Ok(stream) => Ok(Self(stream)),
            Err(error) => Err(Fault::Use(format!(
                "there is no virtual reader at port {port}: {error}; \
                 does pcscd run, with vsmartcard-vpcd?"
            ))),
        }
    }
}

impl Read for Connection {
    fn read(&mut self, bytes: &mut [u8]) -> io::Result<usize> {
        let count = self.0.read(bytes)?;
        // Asked for anew each time: the system forgets it. Where it cannot be had, all is only slower.
        let _ = self.0.set_quickack(true);
        Ok(count)
    }
}

impl Write for Connection {
    fn write(&mut self, bytes: &[u8]) -> io::Result<usize> {
        self.0.write(bytes)
    }

    fn flush(&mut self) -> io::Result<()> {
        self.0.flush()
    }
}
