/* bounded.rs of concurrent-queue 2.5.0 for spin: push and pop by document 01's tables, an act an atomic step, weak exchanges that may fail. It counts states as explore does: dead variables are set
 * to 0, a call that is not begun stands at B0, one that has ended keeps its answer. CAP and PROCS are put before it by bench/beside-spin. */
#if CAP == 1
#define MARK 2
#elif CAP <= 3
#define MARK 4
#else
#define MARK 8
#endif
#define LAP (2*MARK)
#define IX(w) ((w) & (MARK-1))
#define NEXT(w) ((IX(w)+1 < CAP) -> (w)+1 : (w)-IX(w)+LAP)
byte head, tail, stamp[CAP], val[CAP];
proctype push(byte item) {
  byte t;
B0: atomic { true; goto P1 }
P1: atomic { t = tail; goto P2 }
P2: atomic { if :: stamp[IX(t)] == t -> goto P3 :: stamp[IX(t)]+LAP == t+1 -> goto P6 :: else -> t = 0; goto P1 fi }
P3: atomic { if :: tail == t -> tail = NEXT(t); goto P4 :: tail == t -> goto P2 :: tail != t -> t = tail; goto P2 fi }
P4: atomic { val[IX(t)] = item; goto P5 }
P5: atomic { stamp[IX(t)] = t+1; t = 0; goto end_done }
P6: atomic { if :: head+LAP == t -> t = 1; goto end_done :: else -> t = 0; goto P1 fi }
end_done: false
}
proctype pop() {
  byte h, v;
B0: atomic { true; goto O1 }
O1: atomic { h = head; goto O2 }
O2: atomic { if :: stamp[IX(h)] == h+1 -> goto O3 :: stamp[IX(h)] == h -> goto O6 :: else -> h = 0; goto O1 fi }
O3: atomic { if :: head == h -> head = NEXT(h); goto O4 :: head == h -> goto O2 :: head != h -> h = head; goto O2 fi }
O4: atomic { v = val[IX(h)]; goto O5 }
O5: atomic { stamp[IX(h)] = h+LAP; h = 0; goto end_done }
O6: atomic { if :: tail == h -> h = 0; goto end_done :: else -> h = 0; goto O1 fi }
end_done: false
}
init { atomic { byte i; for (i : 0 .. CAP-1) { stamp[i] = i }
  PROCS } }
