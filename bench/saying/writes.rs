//! Times one `write` of a line of 60 bytes to a stream socket whose other end a thread reads: a Unix pair, and TCP over the loopback.

use std::io::{self, Read, Write};
use std::net::{TcpListener, TcpStream};
use std::os::unix::net::UnixStream;
use std::thread;
use std::time::Instant;

const WRITES: u32 = 300_000;

const LINE: [u8; 60] = [b'x'; 60];

fn drain(mut from: impl Read) -> io::Result<u64> {
    let mut buffer = vec![0; 1 << 16];
    let mut total = 0;
    loop {
        match from.read(&mut buffer)? {
            0 => return Ok(total),
            count => total += count as u64,
        }
    }
}

/// The mean time of a write, in nanoseconds.
fn mean(mut to: impl Write, from: impl Read + Send + 'static) -> io::Result<f64> {
    let reader = thread::spawn(move || drain(from));
    let start = Instant::now();
    for _ in 0..WRITES {
        if to.write(&LINE)? != LINE.len() {
            return Err(io::Error::other("a short write"));
        }
    }
    let took = start.elapsed();
    drop(to);
    let total = reader.join().map_err(|_| io::Error::other("the reader"))??;
    if total != u64::from(WRITES) * LINE.len() as u64 {
        return Err(io::Error::other("bytes were lost"));
    }
    Ok(took.as_secs_f64() * 1e9 / f64::from(WRITES))
}

fn main() -> io::Result<()> {
    let (to, from) = UnixStream::pair()?;
    println!("unix_ns={:.0}", mean(to, from)?);

    let listener = TcpListener::bind("127.0.0.1:0")?;
    let to = TcpStream::connect(listener.local_addr()?)?;
    let (from, _) = listener.accept()?;
    to.set_nodelay(true)?;
    println!("tcp_ns={:.0}", mean(to, from)?);
    Ok(())
}
