"""Runs comparisons piece by piece on several processes, in order, and tells how far it is."""
import collections
import multiprocessing
import multiprocessing.connection
import signal
import sys
import time

import programs

TOLD_EVERY = 10  # seconds, where standard error is no terminal
GUARD = 10  # a piece of work may take so many times the limit of a program


class Died:
    """In place of what a process found: it ended without telling."""

    def __init__(self, how):
        self.how = how


def work_on(work, piece, connection):
    """A process: works on one piece and sends what it found."""
    signal.signal(signal.SIGINT, signal.SIG_IGN)  # the process that started it ends it
    signal.signal(signal.SIGTERM, lambda *_: sys.exit(3))
    connection.send(work(piece))


class Worker:
    def __init__(self, work, piece):
        context = multiprocessing.get_context('fork')
        self.piece, self.started = piece, time.monotonic()
        self.connection, theirs = context.Pipe(duplex=False)
        self.process = context.Process(target=work_on, args=(work, piece, theirs))
        self.process.start()
        theirs.close()

    def found(self):
        """What it sends, once there is something to read."""
        try:
            found = self.connection.recv()
        except EOFError:
            found = None
        self.end()
        if found is None and self.process.exitcode == 2:
            sys.exit(2)  # it said why
        return found or Died(f'a process ended with status {self.process.exitcode}')

    def end(self):
        if self.connection.closed:
            return
        self.connection.close()
        self.process.join(5)
        self.process.terminate()
        self.process.join()


def in_order(work, pieces, jobs, limit, tick):
    """Each piece and what `work` found there, in the order of the pieces, by so many processes.

    `tick(finished)` is called again and again with the pieces that were finished meanwhile.
    """
    waiting = collections.deque(enumerate(pieces))
    running, ready, at = {}, {}, 0
    try:
        while waiting or running or ready:
            while waiting and len(running) < jobs and len(ready) < 8 * jobs:
                number, piece = waiting.popleft()
                worker = Worker(work, piece)
                running[worker.connection] = number, worker
            while at in ready:
                yield ready.pop(at)
                at += 1
            finished = []
            for number, worker, found in next_found(running, limit):
                ready[number] = worker.piece, found
                finished.append(worker.piece)
            tick(finished)
    finally:
        for _, worker in running.values():
            worker.process.terminate()
            worker.end()


def next_found(running, limit):
    """The workers that are done, or take too long, and what they found."""
    if not running:
        return
    for connection in multiprocessing.connection.wait(list(running), timeout=0.5):
        number, worker = running.pop(connection)
        yield number, worker, worker.found()
    for connection, (number, worker) in list(running.items()):
        if time.monotonic() - worker.started > GUARD * limit:
            del running[connection]
            worker.process.terminate()
            worker.end()
            yield number, worker, Died(f'a process took over {GUARD * limit:g} seconds')


class Progress:
    """Progress on standard error, and reports that do not run into it."""

    def __init__(self, name, always):
        self.name = name
        self.terminal = sys.stderr.isatty()
        self.always = always
        self.started = self.told = time.monotonic()

    def seconds(self):
        return time.monotonic() - self.started

    def tell(self, text):
        every = 0.5 if self.terminal else TOLD_EVERY
        if not (self.terminal or self.always) or time.monotonic() - self.told < every:
            return
        self.told = time.monotonic()
        if self.terminal:
            print(f'\r\033[K{text}', end='', file=sys.stderr, flush=True)
        else:
            print(f'{self.name}: {text}', file=sys.stderr, flush=True)

    def clear(self):
        if self.terminal:
            print('\r\033[K', end='', file=sys.stderr, flush=True)

    def say(self, text):
        self.clear()
        print(text, flush=True)


def spoken(seconds):
    """A time left, roughly."""
    if seconds < 100:
        return f'{seconds:.0f} s'
    return f'{seconds / 60:.0f} min' if seconds < 6_000 else f'{seconds / 3600:.1f} h'


class Run:
    """A run over pieces of work: merges what they found, shows the first differences."""

    def __init__(self, given, name, unit, shown):
        self.given, self.unit, self.shown = given, unit, shown
        self.progress = Progress(name, given.progress)
        self.counts = collections.Counter()
        self.differences = self.done = self.total = 0

    def over(self, work, pieces, size, command):
        """`work(piece)` gives a Found; `size(piece)` says how much of the run it is, in `unit`;
        `command(piece)` makes the piece again.
        """
        self.total = sum(map(size, pieces))

        def tick(finished):
            self.done += sum(map(size, finished))
            self.progress.tell(self.so_far())

        found = in_order(work, pieces, self.given.jobs, self.given.limit, tick)
        for piece, found_there in found:
            self.merge(found_there, command(piece))
            if self.counts['failures'] >= programs.MOST_FAILURES:
                self.progress.say(f"programs failed {self.counts['failures']} times: "
                                  'no more is tried')
                break
        found.close()
        self.progress.clear()

    def merge(self, found, command):
        if isinstance(found, Died):
            self.counts['differing pieces'] += 1
            self.counts['failures'] += 1
            self.show(f'{found.how}\n  made by      {command}')
            return
        self.counts.update(found.counts)
        for difference in found.differences:
            first = self.differences == 0
            self.show(difference.text())
            if first:
                self.progress.say(difference.smaller(self.given.smaller))

    def show(self, text):
        self.differences += 1
        if self.differences <= self.shown:
            self.progress.say(text)

    def differing(self):
        return sum(count for what, count in self.counts.items() if what.startswith('differing'))

    def so_far(self):
        seconds = self.progress.seconds()
        rate = self.done / seconds
        left = spoken((self.total - self.done) / rate) if self.done else '?'
        return (f'{self.done:,} of {self.total:,} {self.unit}, {self.differing():,} differing, '
                f'{rate:,.0f} {self.unit}/s, about {left} left')

    def speed(self):
        seconds = self.progress.seconds()
        lost = self.counts['differing pieces']
        return ((f'{lost} pieces of work without a result; ' if lost else '')
                + f'{seconds:.1f} seconds, {self.done / seconds:,.0f} {self.unit}/s with '
                f'{self.given.jobs} at a time')


def options():
    """What every run takes besides its seed and count."""
    return [('--answers', {}),
            ('--progress', {'action': 'store_true'}),
            ('--jobs', {'type': programs.at_least_one, 'default': multiprocessing.cpu_count()}),
            ('--limit', {'type': programs.at_least_one, 'default': 600}),
            ('--smaller', {'type': programs.whole, 'default': 60})]


def interrupt(*_):
    raise KeyboardInterrupt


def main(run, work):
    """Exit status of a run: `work` does it, `run` has its counts."""
    for number in (signal.SIGINT, signal.SIGTERM):
        signal.signal(number, interrupt)
    try:
        work()
    except KeyboardInterrupt:
        run.progress.clear()
        print(f'{run.progress.name}: interrupted after {run.done:,} {run.unit}, '
              f'{run.differing():,} differing', file=sys.stderr)
        return 130
    return 1 if run.differing() else 0
