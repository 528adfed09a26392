//! What `possible --help` prints.

pub const HELP: &str = "\
possible [--queue NAME] [--edition N] [--bits N] [--states N] [--json] [LOG]

Says whether the queue can have given the answers of a log, and gives a schedule, or the answers
that cannot stand together. A log is calls and answers in the order in which somebody outside saw
them:

    capacity 2              1 to 1,024; the one-slot queue has no such line
    workers 2               1 to 64; of the one-slot queue to 16
    w0 push 101             worker 0 calls: push ITEM, force_push ITEM, pop, len, is_empty, is_full,
                            close, is_closed
    w0 pushed               its call has returned: pushed, full, closed, displaced V, popped V,
                            empty, len N, yes, no
    w1 pop
    w1 ?                    it has returned, with what is not known

or a call a line, with two times, in any order of lines:

    w0 push 101 10..14 pushed
    w1 pop 12..             nobody saw it return

A call with no answer may have ended or not. A call that returned before another was called has
ended before that one began; equal times of different workers overlap. # begins a comment. It is
read from LOG, or from standard input.

  possible      a schedule in words, which replay runs to these answers
  impossible    answers that are impossible together whatever all others answered, and why; without
                one of them the row that is named does not say it, or, where none is, it is possible
  not decided   how many states were seen, and the line that was come to

Status: 0 possible, 1 impossible, 2 the log or the arguments cannot be read, or not all can be
written, 3 not decided.

  --queue NAME  bounded, the ring (if not given), or single, the one-slot queue
  --edition N   of the ring: 1 the source's (if not given), 2 the one whose force_push keeps a close
  --bits N      of the ring: 64 (if not given); the library has no ring of 16 bits
  --states N    the most states of a search: 8000000 if not given
  --json        one object: possible (true, false, null); schedule, states; or answers with their
                lines and which is at_fault, smallest, row, why; or line
  --version     prints the version
  -h, --help    prints this

A value may stand behind an = too, as in --states=1000. What follows a word -- is a name.
";
