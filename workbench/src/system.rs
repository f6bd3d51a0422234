//! What the operating system alone can tell: that somebody asks for an end, and
//! which streams were closed from the start. All unsafe code of the package is
//! here.

#![allow(unsafe_code)]

use std::sync::atomic::{AtomicBool, AtomicI32, Ordering};

/// A standard stream, by its descriptor.
#[derive(Clone, Copy, Debug, PartialEq, Eq)]
pub enum Stream {
    /// Standard input.
    Input = 0,
    /// Standard output.
    Output = 1,
    /// Standard error.
    Error = 2,
}

/// The signal of Ctrl-C.
pub const SIGINT: i32 = 2;
/// The signal that `kill` sends where none is named.
pub const SIGTERM: i32 = 15;

/// Whether the process is the program's own.
static OWN_PROCESS: AtomicBool = AtomicBool::new(false);

/// The signal that asked for an end, 0 for none.
static ASKED: AtomicI32 = AtomicI32::new(0);

/// Says that the process is the program's own. Only then [`listen`] changes what
/// signals do: whoever uses the library in a program of theirs keeps their own.
pub fn own_process() {
    OWN_PROCESS.store(true, Ordering::Relaxed);
}

/// From here on SIGINT and SIGTERM ask for an end and make none. To be called by
/// work that looks at [`interrupted`] again and again. The second signal of a
/// kind ends the program at once. One that the caller has ignored stays so.
pub fn listen() {
    if OWN_PROCESS.load(Ordering::Relaxed) {
        signals::catch(SIGINT);
        signals::catch(SIGTERM);
    }
}

/// Whether a signal has asked for an end.
#[must_use]
pub fn interrupted() -> bool {
    signal().is_some()
}

/// The signal that asked for an end.
#[must_use]
pub fn signal() -> Option<i32> {
    match ASKED.load(Ordering::Relaxed) {
        0 => None,
        signal => Some(signal),
    }
}

/// Whether a stream was closed when the program began. Rust's runtime opens
/// `/dev/null` in its place before `main`; this was looked up before that.
#[must_use]
pub fn closed(stream: Stream) -> bool {
    descriptors::closed(stream)
}

#[cfg(unix)]
mod signals {
    use super::ASKED;
    use std::ffi::c_int;
    use std::sync::atomic::Ordering;

    const SIG_DFL: usize = 0;
    const SIG_IGN: usize = 1;

    extern "C" {
        fn signal(signal: c_int, handler: usize) -> usize;
        fn siginterrupt(signal: c_int, interrupts: c_int) -> c_int;
    }

    pub(super) fn catch(number: c_int) {
        let handler = asked_to_end as extern "C" fn(c_int) as usize;
        // SAFETY: `number` is SIGINT or SIGTERM, and `handler` is the address of
        // a C function of one int that lives as long as the program and does
        // nothing but what a handler may do.
        let before = unsafe { signal(number, handler) };
        if before == SIG_IGN {
            // SAFETY: `number` is SIGINT or SIGTERM, and SIG_IGN is no address.
            unsafe { signal(number, SIG_IGN) };
            return;
        }
        // A read that waits ends with the signal, so that it is seen.
        // SAFETY: `number` is SIGINT or SIGTERM; no memory is handed over.
        unsafe { siginterrupt(number, 1) };
    }

    /// Keeps which signal it was. Whoever sends it again means it: then the
    /// system ends the program.
    extern "C" fn asked_to_end(number: c_int) {
        ASKED.store(number, Ordering::Relaxed);
        // SAFETY: `signal` is one of the functions that POSIX lets a handler
        // call; `number` is the signal at hand, and SIG_DFL is no address.
        unsafe { signal(number, SIG_DFL) };
    }
}

#[cfg(not(unix))]
mod signals {
    pub(super) fn catch(_: i32) {}
}

#[cfg(target_os = "linux")]
mod descriptors {
    use super::Stream;
    use std::ffi::c_int;
    use std::sync::atomic::{AtomicU8, Ordering};

    /// A bit for each standard stream that was closed.
    static CLOSED: AtomicU8 = AtomicU8::new(0);

    /// `fcntl`'s question for the flags of a descriptor, which only one that is
    /// open has.
    const F_GETFD: c_int = 1;

    extern "C" {
        fn fcntl(descriptor: c_int, what: c_int, ...) -> c_int;
    }

    /// The C library calls what stands in this section before `main`.
    // SAFETY: each element of the section has to be the address of a C function;
    // one that takes fewer arguments than it is given is one by this system's
    // calling conventions. It calls `fcntl` and uses nothing of Rust's runtime.
    #[used]
    #[link_section = ".init_array"]
    static BEFORE_MAIN: extern "C" fn() = look;

    extern "C" fn look() {
        for stream in [Stream::Input, Stream::Output, Stream::Error] {
            // SAFETY: F_GETFD takes no third argument and changes nothing; any
            // number may be asked about.
            let flags = unsafe { fcntl(stream as c_int, F_GETFD) };
            if flags == -1 {
                CLOSED.fetch_or(1 << stream as u8, Ordering::Relaxed);
            }
        }
    }

    pub(super) fn closed(stream: Stream) -> bool {
        CLOSED.load(Ordering::Relaxed) & (1 << stream as u8) != 0
    }
}

/// Elsewhere nothing is known of it, and a closed stream takes everything.
#[cfg(not(target_os = "linux"))]
mod descriptors {
    pub(super) fn closed(_: super::Stream) -> bool {
        false
    }
}
