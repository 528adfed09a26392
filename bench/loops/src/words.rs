//! A ring and records as words in a host's memory, and the face that it links (hosts/c/fernmoldew.h says what each function does).

use crate::Told;

#[repr(C)]
struct Reply {
    refusal: u64,
    number: u64,
}

extern "C" {
    fn fern_ring_make(head: *mut u64, n: usize, slots: *mut u64, m: usize, records: *mut u64, k: usize, capacity: u64, edition: u64) -> u64;
    fn fern_ring_step(head: *mut u64, n: usize, slots: *mut u64, m: usize, records: *mut u64, k: usize, first: u64, second: u64) -> u64;
    fn fern_ring_run(head: *mut u64, n: usize, slots: *mut u64, m: usize, records: *mut u64, k: usize, schedule: *const u64, length: usize) -> Reply;
}

pub struct Host {
    head: [u64; 8],
    slots: Vec<u64>,
    records: Vec<u64>,
}

impl Host {
    pub fn new(capacity: u64, workers: u64) -> Host {
        let mut host = Host { head: [0; 8], slots: vec![0; 2048], records: vec![0; 5 * workers as usize] };
        let Host { head, slots, records } = &mut host;
        // SAFETY: three slices that do not overlap, as long as is said.
        let refusal = unsafe { fern_ring_make(head.as_mut_ptr(), head.len(), slots.as_mut_ptr(), slots.len(), records.as_mut_ptr(), records.len(), capacity, 1) };
        assert_eq!(refusal, 0, "a machine");
        host
    }

    pub fn step(&mut self, first: u64, second: u64) -> u64 {
        let Host { head, slots, records } = self;
        // SAFETY: three slices that do not overlap, as long as is said.
        unsafe { fern_ring_step(head.as_mut_ptr(), head.len(), slots.as_mut_ptr(), slots.len(), records.as_mut_ptr(), records.len(), first, second) }
    }

    pub fn run(&mut self, schedule: &[u64]) -> (u64, u64) {
        let Host { head, slots, records } = self;
        // SAFETY: four slices that do not overlap, as long as is said.
        let reply = unsafe { fern_ring_run(head.as_mut_ptr(), head.len(), slots.as_mut_ptr(), slots.len(), records.as_mut_ptr(), records.len(), schedule.as_ptr(), schedule.len()) };
        (reply.refusal, reply.number)
    }

    pub fn told(&self, refusal: u64, place: u64) -> Told {
        (refusal, [place, self.head[4], self.head[5], self.head[6]])
    }
}
