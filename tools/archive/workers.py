"""Processes that each run some files at a time, and answer in the order in which they were asked."""

import marshal
import os
import select
import signal
import struct
import sys

import runs

ENDING = {signal.SIGINT, signal.SIGTERM, signal.SIGHUP}
LENGTH = struct.Struct('<I')
AHEAD = 8  # batches of results that may wait in memory for one that takes long, by worker


class Ended(Exception):
    """A worker has gone."""


def read_whole(fd, size):
    data = b''
    while len(data) < size:
        piece = os.read(fd, size - len(data))
        if not piece:
            return None
        data += piece
    return data


def read_message(fd):
    head = read_whole(fd, LENGTH.size)
    body = head and read_whole(fd, LENGTH.unpack(head)[0])
    return body and marshal.loads(body)


def write_message(fd, message):
    body = marshal.dumps(message)
    runs.write_all(fd, LENGTH.pack(len(body)) + body)


def work(asked, turns, requests, results, heard):
    mine = runs.Runs(asked, turns)

    def stop(*_):
        mine.program.stop()
        sys.exit(0)
    signal.signal(signal.SIGINT, signal.SIG_IGN)  # the archive hears it, and ends its workers
    signal.signal(signal.SIGHUP, signal.SIG_IGN)
    signal.signal(signal.SIGTERM, stop)
    signal.pthread_sigmask(signal.SIG_SETMASK, heard)
    while (message := read_message(requests)) is not None:
        number, paths = message
        told = mine.of(paths)
        write_message(results, (number, told.counted, told.lines, told.worth))


class Worker:
    def __init__(self, asked, turns, others):
        asked_here, self.requests = os.pipe()
        self.results, answered_here = os.pipe()
        self.is_busy = False
        heard = signal.pthread_sigmask(signal.SIG_BLOCK, ENDING)  # a worker that is ended before it has its own handlers would say that the archive was
        self.process = os.fork()
        if self.process == 0:
            status = 1
            try:
                for fd in (self.requests, self.results, *(fd for other in others for fd in (other.requests, other.results))):
                    os.close(fd)
                work(asked, turns, asked_here, answered_here, heard)
                status = 0
            except (SystemExit, BrokenPipeError):
                status = 0
            finally:
                os._exit(status)
        signal.pthread_sigmask(signal.SIG_SETMASK, heard)
        os.close(asked_here)
        os.close(answered_here)

    def ask(self, number, paths):
        """Of one that is not busy, and so reads: neither waits for the other to read."""
        write_message(self.requests, (number, paths))
        self.is_busy = True

    def answer(self):
        message = read_message(self.results)
        if message is None:
            raise Ended
        self.is_busy = False
        return message


class Crew:
    def __init__(self, asked, jobs):
        turns = runs.Turns(jobs)
        self.workers = []
        for _ in range(jobs + (jobs + 1) // 2):  # while the programs of some run, the others read files and compare
            self.workers.append(Worker(asked, turns, self.workers))

    def results(self, batches, idle):
        """The results of each batch, in the order of the batches; idle() is called now and then."""
        batches = enumerate(batches)
        kept, next_told, more = {}, 0, True
        ready = select.poll()
        of = {worker.results: worker for worker in self.workers}
        for fd in of:
            ready.register(fd, select.POLLIN)
        while True:
            for worker in self.workers:
                if more and not worker.is_busy and len(kept) <= AHEAD * len(self.workers):
                    number, paths = next(batches, (None, None))
                    more = number is not None
                    if more:
                        worker.ask(number, paths)
            if not any(worker.is_busy for worker in self.workers):
                return
            for fd, _ in ready.poll(200):
                number, *told = of[fd].answer()
                kept[number] = told
            while next_told in kept:
                yield kept.pop(next_told)
                next_told += 1
            idle()

    def end(self):
        for worker in self.workers:
            os.close(worker.requests)
            try:
                os.kill(worker.process, signal.SIGTERM)
            except ProcessLookupError:
                pass
        for worker in self.workers:
            os.waitpid(worker.process, 0)
