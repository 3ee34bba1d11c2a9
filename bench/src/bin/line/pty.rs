//! A pseudo terminal in raw mode, by the C library that every Rust program is linked with.
#![allow(unsafe_code)]

use std::ffi::CStr;
use std::fs::{File, OpenOptions};
use std::io;
use std::os::fd::{AsRawFd, FromRawFd};
use std::os::raw::{c_char, c_int, c_short, c_ulong};
use std::os::unix::fs::OpenOptionsExt;
use std::time::Duration;

// The numbers of Linux.
const O_RDWR: c_int = 2;
const O_NOCTTY: c_int = 0o400;
const O_NONBLOCK: c_int = 0o4000;
const TCSANOW: c_int = 0;
const POLLIN: c_short = 1;

/// Room for the terminal's settings, which are only handed on.
#[repr(C, align(8))]
struct Termios([u8; 256]);

#[repr(C)]
struct PollFd {
    fd: c_int,
    events: c_short,
    revents: c_short,
}

extern "C" {
    fn posix_openpt(flags: c_int) -> c_int;
    fn grantpt(fd: c_int) -> c_int;
    fn unlockpt(fd: c_int) -> c_int;
    fn ptsname_r(fd: c_int, name: *mut c_char, room: usize) -> c_int;
    fn tcgetattr(fd: c_int, settings: *mut Termios) -> c_int;
    fn tcsetattr(fd: c_int, when: c_int, settings: *const Termios) -> c_int;
    fn cfmakeraw(settings: *mut Termios);
    fn poll(fds: *mut PollFd, count: c_ulong, milliseconds: c_int) -> c_int;
}

fn done(answer: c_int) -> io::Result<c_int> {
    if answer < 0 {
        Err(io::Error::last_os_error())
    } else {
        Ok(answer)
    }
}

/// Both ends of a pseudo terminal.
pub struct Pty {
    /// The scanner's end, which never waits.
    pub device: File,
    /// The path of the host's end.
    pub path: String,
    /// The host's end is kept open, so that hosts can come and go.
    _host: File,
}

impl Pty {
    /// A new one, with no byte changed on its way.
    pub fn new() -> io::Result<Pty> {
        // SAFETY: numbers alone are handed over, and the descriptor that comes back is nobody else's.
        let device =
            unsafe { File::from_raw_fd(done(posix_openpt(O_RDWR | O_NOCTTY | O_NONBLOCK))?) };
        let fd = device.as_raw_fd();
        let mut name = [0; 128];
        // SAFETY: the name is lent with its length, and ends with a zero where the call is done.
        let path = unsafe {
            done(grantpt(fd))?;
            done(unlockpt(fd))?;
            if ptsname_r(fd, name.as_mut_ptr(), name.len()) != 0 {
                return Err(io::Error::other("the pseudo terminal has no name"));
            }
            CStr::from_ptr(name.as_ptr()).to_string_lossy().into_owned()
        };
        let host = OpenOptions::new().read(true).write(true).custom_flags(O_NOCTTY).open(&path)?;
        let mut settings = Termios([0; 256]);
        // SAFETY: the settings have more room than any system's have.
        unsafe {
            done(tcgetattr(host.as_raw_fd(), &mut settings))?;
            cfmakeraw(&mut settings);
            done(tcsetattr(host.as_raw_fd(), TCSANOW, &settings))?;
        }
        Ok(Pty { device, path, _host: host })
    }

    /// Waits until bytes are there, at most so long.
    pub fn wait(&self, time: Duration) -> io::Result<()> {
        let mut one = PollFd { fd: self.device.as_raw_fd(), events: POLLIN, revents: 0 };
        // SAFETY: one descriptor is lent, and its count is told.
        match done(unsafe { poll(&mut one, 1, time.as_millis() as c_int) }) {
            Err(error) if error.kind() != io::ErrorKind::Interrupted => Err(error),
            _ => Ok(()),
        }
    }
}
