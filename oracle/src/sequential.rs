//! Random calls one after another, each run to its end before the next begins.

use crate::drive::Run;
use crate::interleaved::mix_for;
use crate::machine::Machine;
use crate::queue::Making;
use crate::random::Random;
use crate::schedule::{whole_call, Schedule};

/// How likely each call is, in the order of the codes.
const MIXES: [[usize; 8]; 5] = [
    [8, 0, 1, 1, 1, 1, 0, 1], // fills
    [1, 0, 8, 1, 1, 1, 0, 1], // empties
    [1, 8, 1, 1, 1, 1, 0, 1], // displaces
    [4, 1, 4, 1, 1, 1, 0, 1], // goes round
    [2, 2, 2, 3, 3, 3, 0, 3], // looks on
];

/// Schedules until so many calls were made.
pub fn drive(run: &mut Run, calls: u64, seed: u64) -> Result<(), String> {
    let mut random = Random::new(seed);
    let mut made = 0;
    while made < calls {
        // A call has about five entries.
        let most = if run.many() { 2000 } else { run.batch / 5 };
        let length = (1 + random.below(most)).min((calls - made) as usize);
        let making = Making::random(run.queue, &mut random);
        run.add(schedule(&mut random, making, length))?;
        made += length as u64;
    }
    run.flush()
}

pub fn schedule(random: &mut Random, making: Making, calls: usize) -> Schedule {
    let workers = random.pick(&[1, 1, 2, making.queue().workers_most()]);
    let mut schedule = Schedule::new(making, workers);
    let mut machine = Machine::make(making, workers).expect("within the limits");
    // The queue stays closed, so closing comes late; some of what follows empties it.
    let close_from = if random.once_in(4) { calls } else { calls - random.below(calls.min(3 * making.room() + 20)) };
    let (mut mix, mut left) = (MIXES[0], 0);
    for done in 0..calls {
        if left == 0 {
            mix = mix_for(making.queue(), random.pick(&MIXES));
            left = 1 + random.below(2 * making.room() + 10);
        }
        left -= 1;
        mix[6] = usize::from(done >= close_from);
        let code = random.weighted(&mix) as u64;
        let item = if code <= 1 { random.item() } else { 0 };
        let worker = random.below(workers as usize) as u64;
        whole_call(&mut schedule, &mut machine, 16 * worker + code, item);
    }
    schedule
}
