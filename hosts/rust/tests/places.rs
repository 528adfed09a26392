//! The places are the header's, code by code; weak exchanges are where the library lets one fail.

use fernmoldew::{Call, Edition, Machine, OneSlot, Place, Queue, Refusal, Unbounded};

/// The members of an enum of the header, from the code after the answers'.
fn members(of: &str) -> Vec<String> {
    let header = std::fs::read_to_string(concat!(env!("CARGO_MANIFEST_DIR"), "/../c/fernmoldew.h")).unwrap();
    let (_, body) = header.split_once(&format!("enum {of} {{\n")).unwrap();
    let (body, _) = body.split_once('}').unwrap();
    let name = |line: &str| line.trim().trim_end_matches(',').split(' ').next().unwrap().replace("FERN_", "").replace("UNBOUNDED_", "").replace("SINGLE_", "");
    body.lines().map(name).filter(|name| !name.is_empty() && name != "CODES").collect()
}

#[test]
fn places_are_the_headers() {
    for (of, place) in [("fern_place", Place::of_ring as fn(u64) -> Option<Place>), ("fern_single_place", Place::of_one_slot), ("fern_unbounded_place", Place::of_unbounded)] {
        let names = members(of);
        for (code, name) in (11..).zip(&names) {
            let name = name.replace("_PUSH", "").replace("_FORCE", "").replace('_', "");
            assert_eq!(place(code).unwrap().to_string().to_uppercase(), name, "{of} {code}");
        }
        assert_eq!((place(10), place(11 + names.len() as u64), place(u64::MAX)), (None, None, None));
    }
}

#[test]
fn weak_exchanges_are_where_one_may_fail() {
    assert!(weak_exchanges(&mut Machine::new(2, 3, Edition::Source).unwrap(), Call::ForcePush(8)) > 100);
    assert!(weak_exchanges(&mut Unbounded::new(3).unwrap(), Call::Push(8)) > 100);
    assert_eq!(weak_exchanges(&mut OneSlot::new(3).unwrap(), Call::ForcePush(8)), 0);
}

fn weak_exchanges(machine: &mut dyn Queue, more: Call) -> u32 {
    let (mut state, mut weak) = (38u64, 0);
    let mut below = |below: u64| {
        state = state.wrapping_mul(6364136223846793005).wrapping_add(1442695040888963407);
        (state >> 33) % below
    };
    for _ in 0..5000 {
        let worker = below(3) as usize;
        let Some(place) = machine.place(worker) else {
            machine.begin(worker, [Call::Push(7), more, Call::Pop, Call::Len, Call::IsEmpty, Call::IsFull][below(6) as usize]).unwrap();
            continue;
        };
        if below(2) == 0 {
            machine.act(worker).unwrap();
        } else {
            assert_eq!(machine.act_losing(worker), if place.is_weak() { Ok(()) } else { Err(Refusal::NoWeakExchange) }, "{place}");
            weak += u32::from(place.is_weak());
        }
    }
    weak
}
