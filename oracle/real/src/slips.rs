// Slips in bounded.rs that threads can meet, each to be found by a log that is impossible: its name, what the source has there, and what stands in its place.
// In three of them the thread gives way between the two actions that matter, or too few runs of a few seconds would meet it.
const SLIPS: [(&str, &str, &str); 5] = [
    (
        "a push's exchange is a store",
        "match self.tail.compare_exchange_weak(
                    tail,
                    new_tail,
                    Ordering::SeqCst,
                    Ordering::Relaxed,
                ) {",
        "match {
                    self.tail.store(new_tail, Ordering::SeqCst);
                    Ok::<usize, usize>(tail)
                } {",
    ),
    (
        "a pop's exchange is a store",
        "match self.head.compare_exchange_weak(
                    head,
                    new,
                    Ordering::SeqCst,
                    Ordering::Relaxed,
                ) {",
        "match {
                    self.head.store(new, Ordering::SeqCst);
                    Ok::<usize, usize>(head)
                } {",
    ),
    (
        "the stamp is stored before the value",
        "                        slot.value.with_mut(|slot| unsafe {
                            slot.write(MaybeUninit::new(value));
                        });
                        slot.stamp.store(tail + 1, Ordering::Release);",
        "                        slot.stamp.store(tail + 1, Ordering::Release);
                        busy_wait();
                        slot.value.with_mut(|slot| unsafe {
                            slot.write(MaybeUninit::new(value));
                        });",
    ),
    (
        "the slot is let go before its value is read",
        "                        let value = slot
                            .value
                            .with_mut(|slot| unsafe { slot.read().assume_init() });
                        slot.stamp
                            .store(head.wrapping_add(self.one_lap), Ordering::Release);",
        "                        slot.stamp
                            .store(head.wrapping_add(self.one_lap), Ordering::Release);
                        busy_wait();
                        let value = slot
                            .value
                            .with_mut(|slot| unsafe { slot.read().assume_init() });",
    ),
    (
        "len's tail is not loaded again",
        "            let head = self.head.load(Ordering::SeqCst);

            // If the tail didn't change, we've got consistent values to work with.
            if self.tail.load(Ordering::SeqCst) == tail {",
        "            busy_wait();
            let head = self.head.load(Ordering::SeqCst);

            if true {",
    ),
];
