//! Timing: short samples, taken in turn, of which the best counts.
use std::time::Instant;

use crate::varied::Numbers;

/// The columns of the table.
#[derive(Clone, Copy, PartialEq, Eq)]
pub enum Who {
    Ours,
    Floor,
    Nfsserve,
    Libtirpc,
    Libnfs,
}

pub const ALL: [(Who, &str); 5] = [
    (Who::Ours, "yugerzat"),
    (Who::Floor, "floor"),
    (Who::Nfsserve, "nfsserve"),
    (Who::Libtirpc, "libtirpc"),
    (Who::Libnfs, "libnfs"),
];

/// One way of doing a row's work. `run(n)` goes n times over all messages of the row.
pub struct Contestant {
    pub who: Who,
    pub run: Box<dyn FnMut(u32)>,
    pub best: f64,
    rounds: u32,
}

pub struct Row {
    pub name: &'static str,
    /// How many messages it has.
    pub count: usize,
    /// The floor is a memcpy of the same bytes.
    pub copying: bool,
    /// For a list, how many bytes it has: it is also told what a byte takes.
    pub bytes: Option<usize>,
    /// For a list that is told only by the byte: the row that comes next is of a longer one.
    pub shorter: bool,
    /// Readies what the peers keep between calls.
    pub ready: Box<dyn FnMut()>,
    pub contestants: Vec<Contestant>,
}

/// In how many orders the messages come before one comes again. A processor that remembers thousands of branches would else
/// foresee them all.
const ORDERS: usize = 128;

/// So many messages, in so many orders.
fn orders(count: usize) -> Vec<Vec<u16>> {
    let mut numbers = Numbers::new();
    let mut order: Vec<u16> = (0..count as u16).collect();
    let mut shuffled = || {
        for last in (1..count).rev() {
            order.swap(last, numbers.within(0, last as u32) as usize);
        }
        order.clone()
    };
    (0..if count > 1 { ORDERS } else { 1 }).map(|_| shuffled()).collect()
}

/// Does the work for each of so many messages, every round in another order.
pub fn contestant<F: FnMut(usize) + 'static>(who: Who, count: usize, mut work: F) -> Contestant {
    let orders = orders(count);
    let mut round = 0;
    let run = Box::new(move |rounds| {
        for _ in 0..rounds {
            for &which in &orders[round] {
                work(usize::from(which));
            }
            round = (round + 1) % orders.len();
        }
    });
    Contestant { who, run, best: f64::INFINITY, rounds: 0 }
}

const SAMPLE_NS: f64 = 60_000.0;

/// The time of a round.
fn sample(contestant: &mut Contestant) -> f64 {
    let begun = Instant::now();
    (contestant.run)(contestant.rounds);
    begun.elapsed().as_nanos() as f64 / f64::from(contestant.rounds)
}

impl Row {
    pub fn new(name: &'static str, count: usize, contestants: Vec<Contestant>) -> Row {
        Row { name, count, copying: false, bytes: None, shorter: false, ready: Box::new(|| ()), contestants }
    }

    pub fn ready_by(self, ready: impl FnMut() + 'static) -> Row {
        Row { ready: Box::new(ready), ..self }
    }

    pub fn time(&mut self, samples: u32) {
        (self.ready)();
        for contestant in &mut self.contestants {
            contestant.rounds = 1;
            while sample(contestant) * f64::from(contestant.rounds) < SAMPLE_NS {
                contestant.rounds *= 2;
            }
        }
        for _ in 0..samples {
            for contestant in &mut self.contestants {
                contestant.best = contestant.best.min(sample(contestant) / self.count as f64);
            }
        }
    }

    /// The best time of a message.
    pub fn best(&self, who: Who) -> Option<f64> {
        self.contestants.iter().find(|c| c.who == who).map(|c| c.best)
    }
}
