// Which of several connections have something to read, by epoll(7), which std does not offer: a turn costs no more where there are many.

use std::ffi::c_int;
use std::net::TcpStream;
use std::os::fd::{AsRawFd, FromRawFd, OwnedFd};

const ADD: c_int = 1;
const IN: u32 = 1;

// C's epoll_event, which is packed on x86-64.
#[repr(C, packed)]
#[derive(Clone, Copy)]
struct Event {
    events: u32,
    number: u64,
}

unsafe extern "C" {
    fn epoll_create1(flags: c_int) -> c_int;
    fn epoll_ctl(poll: c_int, operation: c_int, file: c_int, event: *mut Event) -> c_int;
    fn epoll_wait(poll: c_int, events: *mut Event, most: c_int, milliseconds: c_int) -> c_int;
}

pub struct Poll {
    file: OwnedFd,
    events: Vec<Event>,
}

impl Poll {
    pub fn new() -> Poll {
        // SAFETY: the call takes no pointer, and what it gives is owned here alone.
        let file = unsafe { OwnedFd::from_raw_fd(epoll_create1(0)) };
        Poll { file, events: vec![Event { events: 0, number: 0 }; 256] }
    }

    // Watches a connection under a number, until it is closed.
    pub fn watch(&self, stream: &TcpStream, number: usize) {
        let mut event = Event { events: IN, number: number as u64 };
        // SAFETY: both files are open, and the event is lent for the call.
        unsafe { epoll_ctl(self.file.as_raw_fd(), ADD, stream.as_raw_fd(), &mut event) };
    }

    // Waits until some are ready, or the time is over, and gives their numbers.
    pub fn wait(&mut self, milliseconds: c_int) -> Vec<usize> {
        // SAFETY: the pointer and the count are those of one slice, which is lent for the call.
        let many = unsafe { epoll_wait(self.file.as_raw_fd(), self.events.as_mut_ptr(), self.events.len() as c_int, milliseconds) };
        self.events[..many.max(0) as usize].iter().map(|event| event.number as usize).collect()
    }
}
