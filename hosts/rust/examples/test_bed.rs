//! A program of the bench, tested in every order of its queue's actions: a reader forces speeds onto a belt of two, the bench closes it at the end of the shift, and a judge takes what is there until it is told that the belt is
//! closed. In the source's edition a close can be lost, and the judge waits for ever: the test bed finds the order. In the edition in which a close holds there is none.
//!
//! cargo run --example test_bed [FOLDER]: the tape of what was found is saved there, for ./replay --explain --tape; else below the folder of temporary files.

use fernmoldew::model::{self, Bed};
use fernmoldew::{ConcurrentQueue, Edition, PopError};
use std::error::Error;
use std::path::PathBuf;
use std::sync::Arc;

fn shift() {
    let belt = Arc::new(ConcurrentQueue::bounded(2));
    let reader = {
        let belt = Arc::clone(&belt);
        model::spawn(move || [2950, 2960, 2970].into_iter().take_while(|speed| belt.force_push(*speed).is_ok()).count())
    };
    assert!(belt.close());
    reader.join();
    let judge = model::spawn(move || {
        let mut judged = 0;
        loop {
            match belt.pop() {
                Ok(_) => judged += 1,
                Err(PopError::Closed) => return judged,
                Err(PopError::Empty) => panic!("the judge waits at a belt that was closed"),
            }
        }
    });
    assert!(judge.join() <= 2);
}

fn main() -> Result<(), Box<dyn Error>> {
    let folder = std::env::args_os().nth(1).map_or_else(std::env::temp_dir, PathBuf::from);
    std::panic::set_hook(Box::new(|_| {})); // the failure is told below
    let lost = Bed::new().explore(shift).err().ok_or("edition 1: no close is lost")?;
    println!("edition 1: {lost}");
    let seeded = Bed::new().random(shift).err().ok_or("edition 1: no seed loses a close")?;
    println!("edition 1: {seeded}");
    for path in lost.save(&folder)? {
        println!("./replay --explain --tape {}", path.display());
    }
    let held = Bed::new().edition(Edition::CloseHolds).explore(shift)?;
    assert!(held.complete());
    println!("edition 2: every order, {} states: the judge is always told", held.states);
    Ok(())
}
