//! What the standard library does not have of Linux: waiting for signals, and some settings of a socket.

use std::ffi::{c_int, c_void};
use std::io;
use std::mem::size_of;
use std::net::TcpStream;
use std::os::fd::AsRawFd;

const SIG_BLOCK: c_int = 0;
const SIGINT: c_int = 2;
const SIGTERM: c_int = 15;
const SOL_SOCKET: c_int = 1;
const SO_SNDBUF: c_int = 7;
const SO_KEEPALIVE: c_int = 9;
const IPPROTO_TCP: c_int = 6;
const TCP_KEEPIDLE: c_int = 4;
const TCP_KEEPINTVL: c_int = 5;
const TCP_KEEPCNT: c_int = 6;

/// 128 bytes, as Linux's C libraries have it.
#[repr(C)]
struct SignalSet([u64; 16]);

extern "C" {
    fn sigemptyset(set: *mut SignalSet) -> c_int;
    fn sigaddset(set: *mut SignalSet, signal: c_int) -> c_int;
    fn pthread_sigmask(how: c_int, set: *const SignalSet, before: *mut SignalSet) -> c_int;
    fn sigwait(set: *const SignalSet, signal: *mut c_int) -> c_int;
    fn setsockopt(socket: c_int, level: c_int, name: c_int, value: *const c_void, size: u32) -> c_int;
}

/// SIGINT and SIGTERM.
pub struct Signals(SignalSet);

impl Signals {
    /// Blocks them in this thread and in those that it starts from now on.
    pub fn blocked() -> io::Result<Signals> {
        let mut set = SignalSet([0; 16]);
        // SAFETY: the set is as large as these functions take it to be, and lives while they run.
        let failed = unsafe {
            sigemptyset(&mut set) != 0
                || sigaddset(&mut set, SIGINT) != 0
                || sigaddset(&mut set, SIGTERM) != 0
                || pthread_sigmask(SIG_BLOCK, &set, std::ptr::null_mut()) != 0
        };
        if failed {
            return Err(io::Error::last_os_error());
        }
        Ok(Signals(set))
    }

    /// Waits for one of them and says so; a second one ends everything at once.
    pub fn wait(&self, say: impl FnOnce()) {
        self.next();
        say();
        self.next();
        std::process::exit(1);
    }

    fn next(&self) {
        let mut signal = 0;
        // SAFETY: both live while it runs. It fails for no set that holds signals alone.
        unsafe { sigwait(&self.0, &mut signal) };
    }
}

/// Lets the system keep about so many bytes that are written and not yet received.
pub fn limit_send_buffer(stream: &TcpStream, bytes: c_int) -> io::Result<()> {
    set(stream, SOL_SOCKET, SO_SNDBUF, bytes)
}

/// Lets the system ask after a client that has said nothing for a minute: one that is gone without a farewell, its
/// machine switched off, say, is then closed within another minute.
pub fn notice_silent_ends(stream: &TcpStream) -> io::Result<()> {
    set(stream, SOL_SOCKET, SO_KEEPALIVE, 1)?;
    set(stream, IPPROTO_TCP, TCP_KEEPIDLE, 60)?;
    set(stream, IPPROTO_TCP, TCP_KEEPINTVL, 15)?;
    set(stream, IPPROTO_TCP, TCP_KEEPCNT, 4)
}

fn set(stream: &TcpStream, level: c_int, name: c_int, value: c_int) -> io::Result<()> {
    let place = (&value as *const c_int).cast::<c_void>();
    // SAFETY: the value lives while it runs, and its size is given.
    let result = unsafe { setsockopt(stream.as_raw_fd(), level, name, place, size_of::<c_int>() as u32) };
    if result == 0 {
        Ok(())
    } else {
        Err(io::Error::last_os_error())
    }
}
