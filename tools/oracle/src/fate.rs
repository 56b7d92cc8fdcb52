//! Whether a piece of work ends: it is tried in a process of its own, which may take 1 GB of memory and a second of time. The Rust aborts
//! where it asks for more memory than there is, and no panic handler sees it; nor does one see a text of 32^16 parts.

use std::panic::{catch_unwind, AssertUnwindSafe};

const MEMORY: u64 = 1 << 30;
const SECONDS: u64 = 1;

#[derive(Clone, Copy, Debug, PartialEq, Eq)]
pub enum Fate {
    Ends,
    Aborts,
    GoesOn,
}

/// Limits this process, and leaves it without a voice on standard error.
unsafe fn confine() {
    for (what, most) in [(libc::RLIMIT_AS, MEMORY), (libc::RLIMIT_CPU, SECONDS), (libc::RLIMIT_CORE, 0)] {
        libc::setrlimit(what, &libc::rlimit { rlim_cur: most, rlim_max: most + 1 });
    }
    libc::dup2(libc::open(c"/dev/null".as_ptr(), libc::O_WRONLY), 2);
}

pub fn of(work: impl FnOnce()) -> Fate {
    // SAFETY: these programs have one thread; the child leaves by `_exit`.
    unsafe {
        match libc::fork() {
            -1 => panic!("fork: {}", std::io::Error::last_os_error()),
            0 => {
                confine();
                let _ = catch_unwind(AssertUnwindSafe(work));
                libc::_exit(0)
            }
            child => {
                let mut status = 0;
                assert_eq!(libc::waitpid(child, &mut status, 0), child, "the child's end");
                if libc::WIFEXITED(status) {
                    Fate::Ends
                } else if libc::WTERMSIG(status) == libc::SIGXCPU {
                    Fate::GoesOn
                } else {
                    Fate::Aborts
                }
            }
        }
    }
}
