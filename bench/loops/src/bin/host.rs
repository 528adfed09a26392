//! host FILE...: `run` of the face that a host links, on words in the host's memory; both test once whether the ring is broken.

use loops::{plain_judged, race, words, Told};

fn proved(list: &[u64]) -> Told {
    let mut host = words::Host::new(list[0], list[1]);
    let (refusal, place) = host.run(&list[2..]);
    host.told(refusal, place)
}

fn main() {
    race(proved, plain_judged);
}
