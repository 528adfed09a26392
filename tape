#!/bin/sh
# tape write [--little] SCHEDULE TAPE, tape read TAPE: schedules as tapes and back (--help says more).
exec "$(dirname "$(readlink -f "$0")")/tools/start" tape "$@"
