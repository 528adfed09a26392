// Slips in bounded.rs, each to be found by the plain queue (plain.rs): its name, what the source has there, and what stands in its place.
// build.rs plants them in copies of the source, for the tests alone.
const SLIPS: [(&str, &str, &str); 17] = [
    ("P6 without head", "if head.wrapping_add(self.one_lap) == tail {", "if head.wrapping_add(self.one_lap) == tail || true {"),
    ("Closed for Full", "Err(PushError::Full(value))", "Err(PushError::Closed(value))"),
    ("O6 answers Empty on marked", "return Err(PopError::Closed);", "return Err(PopError::Empty);"),
    (
        "is_full loads head first",
        "        let tail = self.tail.load(Ordering::SeqCst);
        let head = self.head.load(Ordering::SeqCst);

        // Is the head",
        "        let head = self.head.load(Ordering::SeqCst);
        let tail = self.tail.load(Ordering::SeqCst);

        // Is the head",
    ),
    (
        "is_empty loads tail first",
        "        let head = self.head.load(Ordering::SeqCst);
        let tail = self.tail.load(Ordering::SeqCst);

        // Is the tail",
        "        let tail = self.tail.load(Ordering::SeqCst);
        let head = self.head.load(Ordering::SeqCst);

        // Is the tail",
    ),
    ("len without its second tail", "if self.tail.load(Ordering::SeqCst) == tail {", "if true {"),
    ("a lost P3 ignores the mark", "tail = t;", "tail = t & !self.mark_bit;"),
    ("a lost P3 answers Pushed", "tail = t;", "if t & self.mark_bit == 0 { return Ok(()); } tail = t;"),
    (
        "a won P3 writes another item",
        "slot.write(MaybeUninit::new(value));",
        "slot.write(MaybeUninit::new(core::mem::transmute_copy::<u64, T>(&super::ANOTHER)));",
    ),
    (
        "a won F6 writes another item",
        "slot.replace(MaybeUninit::new(value))",
        "slot.replace(MaybeUninit::new(core::mem::transmute_copy::<u64, T>(&super::ANOTHER)))",
    ),
    ("P2 without the stamp", "if tail == stamp {", "if tail == stamp || true {"),
    (
        "F6 without a compare",
        ".compare_exchange_weak(head, new_head, Ordering::SeqCst, Ordering::Relaxed)",
        ".compare_exchange_weak(self.head.load(Ordering::Relaxed), new_head, Ordering::SeqCst, Ordering::Relaxed)",
    ),
    (
        "the stamp before the value",
        "                        slot.value.with_mut(|slot| unsafe {
                            slot.write(MaybeUninit::new(value));
                        });
                        slot.stamp.store(tail + 1, Ordering::Release);",
        "                        slot.stamp.store(tail + 1, Ordering::Release);
                        slot.value.with_mut(|slot| unsafe {
                            slot.write(MaybeUninit::new(value));
                        });",
    ),
    ("is_empty always answers no", "        (tail & !self.mark_bit) == head\n", "        (tail & !self.mark_bit) == head && false\n"),
    (
        "is_full always answers no",
        "head.wrapping_add(self.one_lap) == tail & !self.mark_bit\n",
        "head.wrapping_add(self.one_lap) == tail & !self.mark_bit && false\n",
    ),
    ("close always answers yes", "tail & self.mark_bit == 0\n", "tail & self.mark_bit == 0 || true\n"),
    (
        "is_closed always answers no",
        "self.tail.load(Ordering::SeqCst) & self.mark_bit != 0",
        "self.tail.load(Ordering::SeqCst) & self.mark_bit != 0 && false",
    ),
];
