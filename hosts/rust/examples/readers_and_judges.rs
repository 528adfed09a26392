//! Two readers and a judge on one ring, in random turns; one weak exchange in eight fails. Each reader's speeds come out in the order in which it put them in.

use fernmoldew::{Answer, Call, Edition, Refusal, Ring, Workers};

fn main() -> Result<(), Refusal> {
    const READERS: usize = 2;
    const JUDGE: usize = READERS;
    let mut workers = Workers::new(READERS + 1);
    let mut ring = Ring::new(8, Edition::Source, &mut workers)?;
    let mut state: u64 = 7;
    let mut random = |below: u64| {
        state = state.wrapping_mul(6364136223846793005).wrapping_add(1442695040888963407);
        (state >> 33) % below
    };
    let (mut put, mut seen, mut judged) = ([0u64; READERS], [0u64; READERS], 0);
    while judged < 10_000 {
        let worker = random(READERS as u64 + 1) as usize;
        if workers.get(worker).busy() {
            if random(8) != 0 || ring.act_losing(&mut workers, worker).is_err() {
                ring.act(&mut workers, worker)?;
            }
            match workers.get(worker).answer() {
                Some(Answer::Pushed) => put[worker] += 1,
                Some(Answer::Popped(item)) => {
                    let reader = (item % READERS as u64) as usize;
                    assert_eq!(item / READERS as u64, seen[reader], "out of order");
                    seen[reader] += 1;
                    judged += 1;
                }
                _ => {}
            }
        } else if worker == JUDGE {
            ring.begin(&mut workers, JUDGE, Call::Pop)?;
        } else {
            ring.begin(&mut workers, worker, Call::Push(put[worker] * READERS as u64 + worker as u64))?;
        }
    }
    println!("{judged} speeds judged in {} acts, each reader's in its order", ring.meter());
    Ok(())
}
