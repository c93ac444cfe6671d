//! What is raced: cases of contestants that do the same job on the same text.

use std::time::Instant;

/// How long one contestant's turn in a round takes, about.
const TURN_NANOSECONDS: u128 = 100_000;

/// Which text a case is about.
#[derive(Clone, Copy, Debug, PartialEq)]
pub struct Plan {
    pub job: &'static str,
    pub kind: &'static str,
    /// The bytes asked for; a text has so many or a few less.
    pub size: usize,
    /// The bytes of a piece of an upload, and 0 elsewhere.
    pub piece: usize,
    /// How many texts of this size a call reads, one behind another.
    pub texts: usize,
}

pub type Call = Box<dyn FnMut()>;

/// Our own library's name among the contestants. It is always the first.
pub const OURS: &str = "j8";

pub struct Case {
    pub plan: Plan,
    /// Of the text that is read or that we write.
    pub bytes: usize,
    pub contestants: Vec<(&'static str, Call)>,
}

/// A text that lasts as long as the program, so that every contestant of a case
/// can have it.
pub fn keep<T>(value: T) -> &'static T {
    Box::leak(Box::new(value))
}

/// The least nanoseconds a call of each contestant, over interleaved rounds.
pub fn race(contestants: &mut [&mut Call], rounds: usize) -> Vec<f64> {
    let calls: Vec<u32> = contestants
        .iter_mut()
        .map(|call| {
            // The first calls also warm up.
            let start = Instant::now();
            let mut done = 0;
            while start.elapsed().as_nanos() < TURN_NANOSECONDS {
                call();
                done += 1;
            }
            done
        })
        .collect();
    let mut least = vec![f64::INFINITY; contestants.len()];
    for round in 0..rounds {
        for turn in 0..contestants.len() {
            // Nobody always runs after the same neighbour.
            let who = (turn + round) % contestants.len();
            let start = Instant::now();
            for _ in 0..calls[who] {
                contestants[who]();
            }
            let each = start.elapsed().as_nanos() as f64 / f64::from(calls[who]);
            least[who] = least[who].min(each);
        }
    }
    least
}

/// The least times of a case's contestants, in their order.
pub fn race_case(case: &mut Case, rounds: usize) -> Vec<f64> {
    let mut calls: Vec<&mut Call> = case.contestants.iter_mut().map(|(_, call)| call).collect();
    race(&mut calls, rounds)
}
