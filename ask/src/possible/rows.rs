//! What a log never shows (docs/PROMISES.md): eight rows, looked for in time that grows as the log does (row 3 sorts). Each is found with the answers that it needs: the others may be anything.

use super::log::{Log, Seen, NEVER};
use fernmoldew::{Answer, Call};
use std::collections::HashMap;

/// A row that a log shows.
#[derive(Clone, Debug)]
pub struct Shown {
    pub row: u8,
    /// The call whose answer is at fault.
    pub at: u32,
    /// Answers that show it alone, that one too.
    pub by: Vec<u32>,
    pub why: String,
}

/// Which queue the log is of.
#[derive(Clone, Copy, Debug, PartialEq, Eq)]
pub struct Rules {
    pub capacity: i64,
    /// A close is never lost: edition 2, and the one-slot queue.
    pub close_holds: bool,
}

/// Of each event, how many before it. Calls that hand in: begun (refused ones not counted), and answered Pushed or Displaced. Calls that hand out: begun (those counted of which it is not
/// known), and answered.
struct Counts {
    begun_in: Vec<i32>,
    sure_in: Vec<i32>,
    begun_out: Vec<i32>,
    sure_out: Vec<i32>,
}

fn hands_in(call: &Seen) -> bool {
    call.item().is_some() && !call.refused()
}

fn is_in(call: &Seen) -> bool {
    matches!(call.answer, Some(Answer::Pushed | Answer::Displaced(_)))
}

fn may_hand_out(call: &Seen) -> bool {
    call.out().is_some() || call.may_take()
}

impl Counts {
    fn of(log: &Log) -> Counts {
        let room = log.events.len() + 1;
        let mut counts = Counts {
            begun_in: Vec::with_capacity(room),
            sure_in: Vec::with_capacity(room),
            begun_out: Vec::with_capacity(room),
            sure_out: Vec::with_capacity(room),
        };
        let mut now = [0; 4];
        counts.push(now);
        for event in log.events.iter() {
            let call = &log.calls[event.call()];
            if event.is_answer() {
                now[1] += is_in(call) as i32;
                now[3] += call.out().is_some() as i32;
            } else {
                now[0] += hands_in(call) as i32;
                now[2] += may_hand_out(call) as i32;
            }
            counts.push(now);
        }
        counts
    }

    fn push(&mut self, now: [i32; 4]) {
        self.begun_in.push(now[0]);
        self.sure_in.push(now[1]);
        self.begun_out.push(now[2]);
        self.sure_out.push(now[3]);
    }

    /// Certainly in throughout the call: in before it began, less what can have gone out before it answered (by others).
    fn least(&self, call: &Seen) -> i64 {
        let own = may_hand_out(call) as i32;
        (self.sure_in[call.begin as usize] - (self.begun_out[call.end as usize] - own)) as i64
    }

    /// The most that can have been in at any moment of the call (by others).
    fn most(&self, call: &Seen) -> i64 {
        let own = hands_in(call) as i32;
        (self.begun_in[call.end as usize] - own - self.sure_out[call.begin as usize]) as i64
    }
}

/// Where an item went in and out, if it was handed in once (refused calls not counted) and its way is known.
#[derive(Clone, Copy)]
struct Way {
    into: u32,
    out: Option<u32>,
}

struct Items {
    ways: HashMap<u64, Vec<Way>>,
    /// The begin of the first call of which it is not known what it took.
    unknown: u32,
}

/// The row that is shown by the fewest answers, of these the earliest; none is shown.
pub fn shown(log: &Log, rules: Rules) -> Option<Shown> {
    let mut found: Option<Shown> = None;
    let mut take = |shown: Option<Shown>| {
        if let Some(mut shown) = shown {
            shown.by.sort_unstable();
            shown.by.dedup();
            let rank = |shown: &Shown| (shown.by.len(), log.calls[shown.at as usize].end);
            if found.as_ref().is_none_or(|other| rank(&shown) < rank(other)) {
                found = Some(shown);
            }
        }
    };
    take(from_nowhere_or_twice(log));
    take(closed(log, rules));
    take(by_item(log));
    take(counted(log, rules, &Counts::of(log)));
    found
}

/// Rows 1 and 2.
fn from_nowhere_or_twice(log: &Log) -> Option<Shown> {
    let mut items: HashMap<u64, (u32, u32)> = HashMap::new(); // begun in, answered out
    for event in log.events.iter() {
        let at = event.call();
        let call = &log.calls[at];
        if !event.is_answer() {
            if let Some(item) = call.item().filter(|_| !call.refused()) {
                items.entry(item).or_default().0 += 1;
            }
            continue;
        }
        let Some(item) = call.out() else { continue };
        let (begun, out) = items.entry(item).or_default();
        *out += 1;
        let (begun, out) = (*begun, *out);
        let own = (call.item() == Some(item)) as u32;
        let (row, mut by, why) = if begun == own {
            (1, vec![at as u32], format!("nobody had begun to hand in {item} by then"))
        } else if out > begun {
            let handed_out = |other: &Seen| other.out() == Some(item) && other.end <= call.end;
            let by = log.known().into_iter().filter(|other| handed_out(&log.calls[*other as usize])).collect();
            (2, by, format!("{item} was handed out {out} times by then, and handed in {begun} times at most"))
        } else {
            continue;
        };
        by.extend(log.known().into_iter().filter(|other| {
            let other = &log.calls[*other as usize];
            other.item() == Some(item) && other.refused() && other.begin < call.end
        }));
        return Some(Shown { row, at: at as u32, by, why });
    }
    None
}

/// Row 6.
fn closed(log: &Log, rules: Rules) -> Option<Shown> {
    let mut begun: [Option<u32>; 2] = [None; 2]; // the first two closes that were begun
    let mut answered: Option<u32> = None;
    for event in log.events.iter() {
        let at = event.call() as u32;
        let call = &log.calls[at as usize];
        if !event.is_answer() {
            if call.call == Call::Close {
                if begun[0].is_none() {
                    begun[0] = Some(at);
                } else if begun[1].is_none() {
                    begun[1] = Some(at);
                }
            }
            continue;
        }
        let (says_closed, says_open) = match (call.call, call.answer) {
            (_, Some(Answer::Closed(_) | Answer::PopClosed)) => (true, false),
            (Call::IsClosed, Some(answer)) => (answer == Answer::Yes, answer == Answer::No),
            (Call::Close, Some(answer)) => (answer == Answer::No, answer == Answer::Yes),
            (Call::Push(_) | Call::ForcePush(_), Some(Answer::Pushed | Answer::Displaced(_)))
            | (_, Some(Answer::Empty)) => (false, true),
            _ => (false, false),
        };
        if says_closed && begun.iter().flatten().all(|close| *close == at) {
            let other = if call.call == Call::Close { "no other close" } else { "no close" };
            return Some(Shown { row: 6, at, by: vec![at], why: format!("{other} had begun by then") });
        }
        if let (true, true, Some(close)) =
            (rules.close_holds, says_open, answered.filter(|close| log.calls[*close as usize].end < call.begin))
        {
            return Some(Shown {
                row: 6,
                at,
                by: vec![at],
                why: format!(
                    "w{}'s close had answered by {}, before this call began",
                    log.calls[close as usize].worker,
                    log.to(close as usize)
                ),
            });
        }
        if call.call == Call::Close && answered.is_none() {
            answered = Some(at);
        }
    }
    None
}

/// Rows 4, 5, 7 and 8, by counts.
fn counted(log: &Log, rules: Rules, counts: &Counts) -> Option<Shown> {
    let capacity = rules.capacity;
    let mut best: Option<Shown> = None;
    for (at, call) in log.calls.iter().enumerate() {
        let Some(answer) = call.answer else { continue };
        if best.as_ref().is_some_and(|best| log.calls[best.at as usize].end <= call.end) {
            continue;
        }
        let (least, most) = (counts.least(call), counts.most(call));
        let certainly = || {
            format!(
                "{least} were certainly in throughout: {} had gone in before {}, and {} can have gone out by {}",
                counts.sure_in[call.begin as usize],
                log.from(at),
                counts.sure_in[call.begin as usize] as i64 - least,
                log.to(at)
            )
        };
        let at_most = || {
            format!(
                "{most} can have been in at most: {} were begun to be handed in by {}, and {} had gone out before {}",
                most + counts.sure_out[call.begin as usize] as i64,
                log.to(at),
                counts.sure_out[call.begin as usize],
                log.from(at)
            )
        };
        // the row; by how many in at least, or at most, it is shown
        let (row, is_least, bound) = match (call.call, answer) {
            (Call::Pop, Answer::Empty | Answer::PopClosed) | (Call::IsEmpty, Answer::Yes) if least > 0 => (4, true, 1),
            (_, Answer::Full(_) | Answer::Displaced(_)) | (Call::IsFull, Answer::Yes) if most < capacity => {
                (5, false, capacity - 1)
            }
            (_, Answer::Len(count)) if count as i128 > capacity as i128 => {
                best = Some(Shown {
                    row: 7,
                    at: at as u32,
                    by: vec![at as u32],
                    why: format!("the capacity is {capacity}"),
                });
                continue;
            }
            (_, Answer::Len(count)) if (count as i64) < least => (7, true, count as i64 + 1),
            (_, Answer::Len(count)) if (count as i64) > most => (7, false, count as i64 - 1),
            (_, Answer::Pushed) | (Call::IsFull, Answer::No) if least >= capacity => (8, true, capacity),
            (Call::IsEmpty, Answer::No) if most < 1 => (8, false, 0),
            _ => continue,
        };
        let (by, why) = if is_least {
            (in_throughout(log, call, bound), certainly())
        } else {
            (never_so_many(log, call, bound), at_most())
        };
        let mut by = by;
        by.push(at as u32);
        best = Some(Shown { row, at: at as u32, by, why });
    }
    best
}

/// Answers by which so many are certainly in throughout a call: enough that went in, and those of pops and force_pushes that took nothing out.
fn in_throughout(log: &Log, call: &Seen, bound: i64) -> Vec<u32> {
    let mut by = vec![];
    let mut taken = 0;
    for (at, other) in
        log.calls.iter().enumerate().filter(|(_, other)| other.begin < call.end && other.begin != call.begin)
    {
        match other.call {
            Call::Pop | Call::ForcePush(_)
                if other.answer.is_some() && !may_hand_out(other) && !(is_in(other) && other.end < call.begin) =>
            {
                by.push(at as u32)
            }
            Call::Pop | Call::ForcePush(_) if may_hand_out(other) => taken += 1,
            _ => {}
        }
    }
    // one more that goes in than goes out, and so on; a displacing one that ended before goes in and out
    let mut wanted = bound + taken;
    for (at, other) in log
        .calls
        .iter()
        .enumerate()
        .filter(|(_, other)| is_in(other) && other.end < call.begin)
        .collect::<Vec<_>>()
        .into_iter()
        .rev()
    {
        let none_out = matches!(other.call, Call::ForcePush(_)) && !may_hand_out(other);
        if wanted > 0 || none_out {
            by.push(at as u32);
            wanted -= 1;
        }
    }
    by
}

/// Answers by which never more than so many are in during a call: of those handed in by others as many are known to be refused, or gone out before.
fn never_so_many(log: &Log, call: &Seen, bound: i64) -> Vec<u32> {
    let begun = log
        .calls
        .iter()
        .filter(|other| other.item().is_some() && other.begin < call.end && other.begin != call.begin)
        .count() as i64;
    let mut wanted = begun - bound;
    let mut by = vec![];
    for (at, other) in
        log.calls.iter().enumerate().filter(|(_, other)| other.begin < call.end && other.begin != call.begin)
    {
        if wanted > 0 && (other.item().is_some() && other.refused() || other.out().is_some() && other.end < call.begin)
        {
            by.push(at as u32);
            wanted -= 1;
        }
    }
    by
}

impl Items {
    fn of(log: &Log) -> Items {
        let mut items = Items { ways: HashMap::with_capacity(log.calls.len() / 2), unknown: NEVER };
        for (at, call) in log.calls.iter().enumerate() {
            if let Some(item) = call.item().filter(|_| hands_in(call)) {
                items.ways.entry(item).or_default().push(Way { into: at as u32, out: None });
            }
            if call.may_take() {
                items.unknown = items.unknown.min(call.begin);
            }
        }
        for (at, call) in log.calls.iter().enumerate() {
            if let Some(ways) = call.out().and_then(|item| items.ways.get_mut(&item)) {
                if let [way] = &mut ways[..] {
                    way.out = Some(at as u32);
                }
            }
        }
        items
    }

    /// When the way out began, at the earliest.
    fn leaves(&self, log: &Log, way: Way) -> u32 {
        way.out.map_or(self.unknown, |out| log.calls[out as usize].begin)
    }
}

/// Row 3, and row 4 of one item. An item has gone in when its call has answered: by the answer, or since it was handed out later.
fn by_item(log: &Log) -> Option<Shown> {
    let items = Items::of(log);
    let mut ways: Vec<Way> = items.ways.values().filter(|ways| ways.len() == 1).map(|ways| ways[0]).collect();
    ways.sort_unstable_by_key(|way| way.into);
    // in the order of their answers: those that certainly went in
    let mut gone_in: Vec<Way> = ways
        .iter()
        .copied()
        .filter(|way| {
            let into = &log.calls[way.into as usize];
            into.returned() && (is_in(into) || way.out.is_some())
        })
        .collect();
    gone_in.sort_unstable_by_key(|way| log.calls[way.into as usize].end);
    let mut found: Option<(bool, Shown)> = None;
    // one whose way out is known, and the earliest
    let better = |found: &Option<(bool, Shown)>, stays: &Way, at: u32| {
        found.as_ref().is_none_or(|(unknown, other)| {
            (stays.out.is_none(), log.calls[at as usize].end) < (*unknown, log.calls[other.at as usize].end)
        })
    };
    // what stays longest of those that went in before a moment: of those whose way out is known, and of the others
    let mut next = 0;
    let mut longest: [Option<Way>; 2] = [None; 2];
    let mut way_of: HashMap<u32, Way> = HashMap::with_capacity(ways.len());
    for way in &ways {
        way_of.insert(way.into, *way);
    }
    for (at, call) in log.calls.iter().enumerate() {
        while let Some(way) = gone_in.get(next).filter(|way| log.calls[way.into as usize].end < call.begin) {
            let longest = &mut longest[way.out.is_none() as usize];
            if longest.is_none_or(|longest| items.leaves(log, *way) > items.leaves(log, longest)) {
                *longest = Some(*way);
            }
            next += 1;
        }
        // the first that shows it: fewer answers tell of a way out that is known
        let stays_past = |end: u32| longest.iter().flatten().find(|way| end < items.leaves(log, **way)).copied();
        // overtaken: this call hands in what went out before the other was come for
        if let Some(out) = way_of.get(&(at as u32)).and_then(|way| way.out) {
            let last = &log.calls[out as usize];
            if let Some(stays) = stays_past(last.end).filter(|stays| better(&found, stays, out)) {
                let item = log.calls[stays.into as usize].item().expect("it hands in");
                let other = call.item().expect("it hands in");
                let mut by = way_known(log, stays, last.end);
                by.push(out);
                refused_of(log, other, &mut by);
                let never = if stays.out.is_some() {
                    format!("before anyone came for {item}")
                } else {
                    format!("and nothing took {item} out")
                };
                found = Some((
                    stays.out.is_none(),
                    Shown {
                        row: 3,
                        at: out,
                        by,
                        why: format!(
                            "{item} was in from {} on, before {other} was handed in at {}; {other} went out {never}",
                            log.to(stays.into as usize),
                            log.from(at)
                        ),
                    },
                ));
            }
        }
        // empty beside it
        let empty = matches!(
            (call.call, call.answer),
            (Call::Pop, Some(Answer::Empty | Answer::PopClosed)) | (Call::IsEmpty, Some(Answer::Yes))
        );
        if let Some(stays) = stays_past(call.end).filter(|stays| empty && better(&found, stays, at as u32)) {
            let item = log.calls[stays.into as usize].item().expect("it hands in");
            let mut by = way_known(log, stays, call.end);
            by.push(at as u32);
            let why = match stays.out {
                Some(out) => format!(
                    "{item} was in from {} on, and nobody came for it before {}",
                    log.to(stays.into as usize),
                    log.from(out as usize)
                ),
                None => format!("{item} was in from {} on, and nothing took it out", log.to(stays.into as usize)),
            };
            found = Some((stays.out.is_none(), Shown { row: 4, at: at as u32, by, why }));
        }
    }
    found.map(|(_, shown)| shown)
}

/// Answers that show that an item was in up to an event: that of its way out; else that it went in, and of all who could have taken it before the event what they did.
fn way_known(log: &Log, way: Way, until: u32) -> Vec<u32> {
    let mut by = match way.out {
        Some(out) => vec![out],
        None => {
            let takers = log.calls.iter().enumerate().filter(|(_, call)| {
                call.begin < until && matches!(call.call, Call::Pop | Call::ForcePush(_)) && call.answer.is_some()
            });
            let mut by: Vec<u32> = takers.map(|(at, _)| at as u32).collect();
            if !by.contains(&way.into) {
                by.push(way.into);
            }
            by
        }
    };
    refused_of(log, log.calls[way.into as usize].item().expect("it hands in"), &mut by);
    by
}

/// Calls that were refused with this item: were it not known, they might have handed it in.
fn refused_of(log: &Log, item: u64, by: &mut Vec<u32>) {
    by.extend(
        log.calls
            .iter()
            .enumerate()
            .filter(|(_, call)| call.item() == Some(item) && call.refused())
            .map(|(at, _)| at as u32),
    );
}
