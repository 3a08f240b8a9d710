//! A plain queue of std's Mutex and Condvar, which hands jobs to threads and back: queue JOBS UNDER_WAY WORKERS
//!
//! It is what bench/times/record.sh measures beside `thriftd record`. The first thread keeps UNDER_WAY jobs under way, one for each connection, as the loop does: it hands over
//! the next job of a connection once it has that one's outcome. With no workers it does the jobs itself, through the same queues. A job is what a worker does of a
//! call of the calculator's `add`: it reads the head and the fields of the payload, adds, enters the call in a journal that all share, and makes the reply; and
//! since the program finds types and names in a schema where this has them written out, it then goes through ROUNDS of shifts, each of which waits for the one
//! before. Together that takes about what decision, answer and reply take in the program, three quarters of a microsecond: they are 4,700 of the 10,900 instructions
//! of a call of a rehearsal (`valgrind --tool=callgrind`), which takes 1.8 microseconds with the script's reading and the report's writing; those aren't done
//! here. It prints the nanoseconds that a job takes by itself.
use std::collections::VecDeque;
use std::sync::{Condvar, Mutex};
use std::time::Instant;

const ROUNDS: u32 = 270;
const ALONE: u32 = 200;

/// Items that one side puts and the other takes, in order.
struct Queue<T> {
    items: Mutex<VecDeque<T>>,
    came: Condvar,
}

impl<T> Queue<T> {
    fn new() -> Self {
        Queue { items: Mutex::new(VecDeque::new()), came: Condvar::new() }
    }

    fn put(&self, item: T) {
        self.items.lock().unwrap().push_back(item);
        self.came.notify_one();
    }

    fn take(&self) -> T {
        let mut items = self.items.lock().unwrap();
        loop {
            if let Some(item) = items.pop_front() {
                return item;
            }
            items = self.came.wait(items).unwrap();
        }
    }
}

/// A connection and the payload of its call, or the reply to it.
type Item = (u32, Vec<u8>);

/// The calls with their sums, in the order in which they were made.
type Journal = Mutex<Vec<(u32, i32, i32, i32)>>;

fn number_at(bytes: &[u8], at: usize) -> i32 {
    i32::from_be_bytes(bytes[at..at + 4].try_into().unwrap())
}

/// The payload of call number k.
fn payload(k: u32) -> Vec<u8> {
    let mut bytes = vec![0x80, 1, 0, 1, 0, 0, 0, 3, b'a', b'd', b'd'];
    bytes.extend_from_slice(&k.to_be_bytes());
    for (field, value) in [(1u16, k.wrapping_mul(7919)), (2, k.wrapping_mul(104_729))] {
        bytes.push(8);
        bytes.extend_from_slice(&field.to_be_bytes());
        bytes.extend_from_slice(&value.to_be_bytes());
    }
    bytes.push(0);
    bytes
}

/// What a worker does of a call.
fn serve((c, payload): Item, journal: &Journal) -> Item {
    assert!(payload[..11] == [0x80, 1, 0, 1, 0, 0, 0, 3, b'a', b'd', b'd'] && payload[15] == 8 && payload[22] == 8);
    let (id, a, b) = (number_at(&payload, 11), number_at(&payload, 18), number_at(&payload, 25));
    let mut state = id as u64 | 1 << 63;
    for _ in 0..ROUNDS {
        state ^= state << 13;
        state ^= state >> 7;
        state ^= state << 17;
    }
    std::hint::black_box(state);
    let sum = a.wrapping_add(b);
    journal.lock().unwrap().push((c, a, b, sum));
    let mut reply = vec![0, 0, 0, 23, 0x80, 1, 0, 2, 0, 0, 0, 3, b'a', b'd', b'd'];
    reply.extend_from_slice(&id.to_be_bytes());
    reply.extend_from_slice(&[8, 0, 0]);
    reply.extend_from_slice(&sum.to_be_bytes());
    reply.push(0);
    (c, reply)
}

/// Hands over jobs and takes their outcomes until all are done; answers how many bytes the replies have.
fn run(count: u32, under_way: u32, workers: u32, jobs: &Queue<Option<Item>>, outcomes: &Queue<Item>, journal: &Journal) -> usize {
    let mut next = under_way.min(count);
    let mut bytes = 0;
    for k in 0..next {
        jobs.put(Some((k, payload(k))));
    }
    for _ in 0..count {
        if workers == 0 {
            outcomes.put(serve(jobs.take().unwrap(), journal));
        }
        let (c, reply) = outcomes.take();
        bytes += reply.len();
        if next < count {
            jobs.put(Some((c, payload(next))));
            next += 1;
        }
    }
    for _ in 0..workers {
        jobs.put(None);
    }
    bytes
}

/// The nanoseconds that some jobs take, one after the other.
fn alone() -> u128 {
    let journal = Mutex::new(Vec::with_capacity(ALONE as usize));
    let start = Instant::now();
    for k in 0..ALONE {
        std::hint::black_box(serve((0, payload(k)), &journal));
    }
    start.elapsed().as_nanos()
}

fn main() {
    let words: Vec<u32> = std::env::args().skip(1).map(|word| word.parse().expect("queue JOBS UNDER_WAY WORKERS")).collect();
    let [count, under_way, workers] = words[..] else { panic!("queue JOBS UNDER_WAY WORKERS") };
    let (jobs, outcomes) = (Queue::new(), Queue::new());
    let journal = Mutex::new(Vec::with_capacity(count as usize));
    let bytes = std::thread::scope(|scope| {
        for _ in 0..workers {
            scope.spawn(|| {
                while let Some(item) = jobs.take() {
                    outcomes.put(serve(item, &journal));
                }
            });
        }
        run(count, under_way, workers, &jobs, &outcomes, &journal)
    });
    assert!(bytes == 27 * count as usize && journal.lock().unwrap().len() == count as usize);
    let least = (0..10).map(|_| alone()).min().unwrap();
    println!("{}", least / u128::from(ALONE));
}
