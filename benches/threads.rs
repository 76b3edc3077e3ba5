//! Two threads over one lock, to compare the machine's threads with: each locks, makes one step of
//! its own processor of the plain interpreter, and unlocks, again and again. Both run the loop over
//! the same words. The argument is the number of steps of each, unless it is 1,000,000. The number
//! of steps made goes to standard output, the nanoseconds to standard error.
#[allow(dead_code)]
#[path = "interpreter.rs"]
mod interpreter;

use interpreter::{Machine, PROGRAM, RAM};
use std::mem::swap;
use std::sync::Mutex;
use std::thread;
use std::time::Instant;

/// Two processors with one RAM and one log, which are with the one that made the last step.
struct Pair {
    processors: [Machine; 2],
    last: usize,
}

impl Pair {
    /// A pair with room in its log for this number of steps.
    fn new(steps: usize) -> Pair {
        let mut first = processor(steps);
        first.ram = vec![0; RAM as usize];
        for (i, word) in PROGRAM.iter().enumerate() {
            let at = 0x200 + 4 * i;
            first.ram[at..at + 4].copy_from_slice(&word.to_be_bytes());
        }
        first.log = Vec::with_capacity(steps);
        Pair { processors: [first, processor(steps)], last: 0 }
    }

    /// One step; `None` where it would trap.
    fn step(&mut self, p: usize) -> Option<()> {
        if self.last != p {
            let [first, second] = &mut self.processors;
            swap(&mut first.ram, &mut second.ram);
            swap(&mut first.log, &mut second.log);
            self.last = p;
        }
        self.processors[p].step()
    }
}

/// A processor at the loop's start, without RAM and log.
fn processor(steps: usize) -> Machine {
    let mut machine = Machine::default();
    machine.pc = 0x8000_0200;
    machine.next = 0x8000_0204;
    machine.room = steps;
    machine
}

/// Makes the steps of a processor, each under the lock by itself.
fn work(pair: &Mutex<Pair>, p: usize, steps: u32) {
    for _ in 0..steps {
        if pair.lock().unwrap().step(p).is_none() {
            break;
        }
    }
}

fn main() {
    let steps = std::env::args().nth(1).map_or(1_000_000, |word| word.parse::<u32>().unwrap_or(0));
    let pair = Mutex::new(Pair::new(2 * steps as usize));
    let pair = &pair;
    let start = Instant::now();
    thread::scope(|scope| {
        for p in 0..2 {
            scope.spawn(move || work(pair, p, steps));
        }
    });
    let took = start.elapsed();
    let pair = pair.lock().unwrap();
    println!("{}", pair.processors[pair.last].log.len());
    eprintln!("{}", took.as_nanos());
}
