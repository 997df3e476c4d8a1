//! What the threads of `bench/threads` are measured beside: the same threads in plain Rust, with one lock, std's condition variables, and as
//! little work for a Read as can be. No list is built, no entry stands in bytes, no page has an owner, and nothing is written down.
//!
//! `threads_peer SUBMITTERS JOBS 1` carries JOBS Reads of one block through for each submitter, and prints how many bytes were read.

use std::collections::VecDeque;
use std::sync::{Condvar, Mutex};
use std::thread;

const IDENTIFIERS: usize = 63;
const BLOCK: usize = 512;
const PAGE: usize = 4096;
const BLOCKS: usize = 64;

/// What stands under the lock.
struct Queues {
    free: Vec<usize>,
    submitted: VecDeque<usize>,
    fetched: VecDeque<usize>,
    completed: VecDeque<usize>,
    ended: Vec<bool>,
    pages: Vec<Vec<u8>>,
    stopping: bool,
}

struct Shared {
    queues: Mutex<Queues>,
    room: Condvar,
    posted: Condvar,
    rung: Condvar,
    ended: Vec<Condvar>,
    image: Vec<u8>,
}

impl Shared {
    fn new() -> Shared {
        Shared {
            queues: Mutex::new(Queues {
                free: (0..IDENTIFIERS).collect(),
                submitted: VecDeque::new(),
                fetched: VecDeque::new(),
                completed: VecDeque::new(),
                ended: vec![false; IDENTIFIERS],
                pages: vec![vec![0; PAGE]; IDENTIFIERS],
                stopping: false,
            }),
            room: Condvar::new(),
            posted: Condvar::new(),
            rung: Condvar::new(),
            ended: (0..IDENTIFIERS).map(|_| Condvar::new()).collect(),
            image: vec![7; BLOCKS * BLOCK],
        }
    }

    /// Fetches, moves a block, posts, until it is told to stop.
    fn control(&self) {
        let mut queues = self.queues.lock().unwrap();
        while !queues.stopping {
            if let Some(cid) = queues.submitted.pop_front() {
                queues.fetched.push_back(cid);
            } else if let Some(cid) = queues.fetched.pop_front() {
                let slba = BLOCK * (cid % BLOCKS);
                queues.pages[cid][..BLOCK].copy_from_slice(&self.image[slba..slba + BLOCK]);
                queues.completed.push_back(cid);
                self.posted.notify_one();
            } else {
                queues = self.rung.wait(queues).unwrap();
            }
        }
    }

    /// Takes completions, until it is told to stop.
    fn poll(&self) {
        let mut queues = self.queues.lock().unwrap();
        while !queues.stopping {
            if let Some(cid) = queues.completed.pop_front() {
                queues.ended[cid] = true;
                self.ended[cid].notify_one();
            } else {
                queues = self.posted.wait(queues).unwrap();
            }
        }
    }

    /// Carries a Read through, and answers how many bytes it read.
    fn read(&self) -> u64 {
        let mut queues = self.queues.lock().unwrap();
        let cid = loop {
            match queues.free.pop() {
                Some(cid) => break cid,
                None => queues = self.room.wait(queues).unwrap(),
            }
        };
        queues.ended[cid] = false;
        queues.pages[cid].fill(0);
        drop(queues);
        let mut queues = self.queues.lock().unwrap();
        queues.submitted.push_back(cid);
        self.rung.notify_one();
        while !queues.ended[cid] {
            queues = self.ended[cid].wait(queues).unwrap();
        }
        let bytes = queues.pages[cid][..BLOCK].to_vec();
        queues.free.push(cid);
        self.room.notify_one();
        drop(queues);
        bytes.len() as u64
    }

    fn stop(&self) {
        self.queues.lock().unwrap().stopping = true;
        self.rung.notify_all();
        self.posted.notify_all();
    }
}

fn main() {
    let words: Vec<usize> = std::env::args().skip(1).map(|word| word.parse().expect("a number")).collect();
    let [submitters, jobs, 1] = words[..] else { panic!("threads_peer SUBMITTERS JOBS 1") };
    let shared = Shared::new();
    let bytes: u64 = thread::scope(|scope| {
        scope.spawn(|| shared.control());
        scope.spawn(|| shared.poll());
        let handles: Vec<_> = (0..submitters)
            .map(|_| scope.spawn(|| (0..jobs).map(|_| shared.read()).sum::<u64>()))
            .collect();
        let bytes = handles.into_iter().map(|handle| handle.join().unwrap()).sum();
        shared.stop();
        bytes
    });
    println!("commands {} bytes {bytes}", submitters * jobs);
}
