#!/usr/bin/env python3
"""Calls of the C library that fail at the real program, one in each run, and what comes of each: failing_calls.md says how, and
support/failing_rows.py has the table.

usage: checks/failing_calls.py [--whole]      prints what came of the calls, and what was otherwise than the table says; without --whole a part is
                                              drawn. GATEWARD names another program than the built one. It wants a C compiler, `cc`
"""
import collections
import concurrent.futures
import os
import random
import sys
import time
from dataclasses import dataclass

from support import failing_rows as rows
from support.checking import Check, becomes, each_form
from support.failing import FUNCTIONS, Failure, library
from support.failing_runs import CONNS, READY, Scenario, bounded, own_port, runs_of
from support.program import PROGRAM
from support.talking import talk

# Of how many calls of each function, in each way, a part has runs.
DRAWN = 3
PIECE = 14
MEMORY_AND_CLOCKS, READS_AND_WRITES = ("malloc", "realloc", "getentropy", "clock_gettime"), ("read", "write", "recv", "send")
# A pause that is cut short changes nothing, and no run has one where nothing fails.
PAUSES = ("nanosleep",)
SCENARIOS = [
    *(Scenario(command) for command in rows.SERVES + rows.WRITERS + (rows.WRONG,)),
    *(Scenario(command, PIECE, only=(("recv", "ECONNRESET"), ("send", "EPIPE"))) for command in rows.SERVES),
    *(Scenario(command, PIECE, only=(("read", "EIO"), ("write", "EIO"))) for command in rows.WRITERS + (rows.WRONG,)),
    Scenario(rows.CALLED, is_reached=False, only=(("getsockopt", "ENOBUFS"), ("poll", "EINTR"))),
    Scenario(rows.POLLED, is_reached=False, only=(("getsockopt", "ENOBUFS"), ("getpeername", "ENOBUFS"))),
]


@dataclass
class Tried:
    """A run with a failing call: where that was made and what was otherwise, or nothing of both where it wasn't made; and what is wrong with it."""
    scenario: Scenario
    failure: Failure
    place: str
    found: str
    fault: str

    def text(self):
        return "%s | %s %s | %s" % (self.scenario.name(), self.failure.function, self.failure.way, self.place)


def outcomes_of(row, failure, run):
    """What a row allows for a run. A read of a connection whose client has ended is missed by nobody; where nothing has come yet, it depends on
    whether the client still asks something. At the admin endpoint each read is bounded by a call of its own before it."""
    is_bound = failure.function == "setsockopt" and row.place == rows.ADMIN
    if not is_bound and (failure.function not in ("recv", "epoll_ctl") or row.place not in (rows.ADMIN, rows.CLIENT)):
        return row.outcomes
    return {0: (rows.AS_EVER,), 1: row.outcomes}.get(run.told.has_bytes, row.outcomes + (rows.AS_EVER,))


def has_pause(scenario, failure, run, place):
    """Whether an accept failed at an acceptor that pauses then, so that who tries again takes no processor for himself. That of the admin endpoint
    fails too where a wait does or no more sockets can be waited for. A polled worker pauses in its wait."""
    if failure.function == "accept4":
        return failure.way != "EINTR" and (scenario.command == rows.CALLED or place == rows.ADMIN_LISTENER)
    if failure.function == "epoll_ctl":
        return run.told.own_port == run.ports["admin"]
    return failure.function == "epoll_wait" and failure.way == "EINVAL" and place == rows.ADMIN_SET


def miscounted(scenario, failure, run, place):
    """What is wrong with the counts of a run that ended in 0: each descriptor is closed, a job ends after so many accepts, failed ones included, and
    there is a pause where one is needed. The acceptor of the admin endpoint also asks where no connection comes, and where one wait failed it has
    one connection fewer."""
    if run.counts["open"]:
        return "%d descriptors aren't closed" % run.counts["open"]
    is_again = failure.function == "accept4" and failure.way == "EINTR" and place == rows.DOOR_LISTENER
    at_door, at_admin = run.counts["waiting"] - is_again, run.counts["accept4"] - run.counts["waiting"]
    if scenario.command == rows.CALLED and (at_door != CONNS or at_admin < CONNS - (failure.function == "epoll_wait")):
        return "%d accepts at the door, and %d at the admin endpoint" % (at_door, at_admin)
    pauses, wanted = run.counts["nanosleep"], has_pause(scenario, failure, run, place)
    return None if pauses == wanted else "%d pauses" % pauses


def fault_of(scenario, failure, run, place):
    """How a run was otherwise than its row says, or none."""
    row = rows.row_of(scenario.command, failure.function, place, failure.way)
    found = run.others or [rows.AS_EVER]
    if not row:
        return "it has no row: %s" % found
    if len(found) > 1:
        return "more than one thing was otherwise: %s" % found
    if found[0] not in outcomes_of(row, failure, run):
        return "not in its row: %s" % found[0]
    has_ended = found[0].startswith("exit code")
    return None if has_ended or scenario.command not in rows.SERVES else miscounted(scenario, failure, run, place)


class Trial:
    """Runs of one scenario, each with another failing call."""

    def __init__(self, scenario, runs, functions):
        self.scenario, self.runs, self.functions = scenario, runs, functions
        first = runs.run("none")
        if first.others:
            raise RuntimeError("%s: without a failing call: %s" % (scenario.name(), first.others))
        self.counts = first.counts

    def ways(self):
        """Each function that is called, with each way in which it is to fail."""
        all_ways = [(name, way) for name in self.functions for way in rows.ways_of(self.scenario.command, name)]
        return [one for one in self.scenario.only or all_ways if self.counts[one[0]]]

    def failures(self, most=None):
        """Each call of each function in each way, or at most so many of them, as a seed draws them."""
        source, found = random.Random(1), []
        for function, way in self.ways():
            calls = [Failure(function, number, way) for number in range(1, self.counts[function] + 1)]
            found += calls if most is None else source.sample(calls, min(most, len(calls)))
        return found

    def without_row(self):
        """The functions that are called and that no row tells of."""
        is_told = {name: rows.ways_of(self.scenario.command, name) for name in self.functions if name not in PAUSES}
        return [name for name, ways in is_told.items() if self.counts[name] and not ways]

    def try_once(self, failure):
        name = "%s-%d-%s" % (failure.function, failure.number, failure.way)
        run = self.runs.run(name, Failure(failure.function, failure.number, rows.number_of(failure.way)))
        if not run.told.has_failed:
            return Tried(self.scenario, failure, "", "", "the call isn't made: %s" % run.others if run.others else None)
        place = self.runs.place_of(failure.function, run)
        fault = fault_of(self.scenario, failure, run, place)
        return Tried(self.scenario, failure, place, "; ".join(run.others) or rows.AS_EVER, fault)

    def try_one(self, failure):
        """What came of a run. Another process may have taken a port that was free, so a socket that isn't bound is tried again."""
        for _ in range(3):
            tried = self.try_once(failure)
            if not tried.fault or "exit code 5" not in tried.found + tried.fault:
                break
        return tried


def tried(built, scenario, functions=FUNCTIONS, most=None, side_by_side=4 * os.cpu_count()):
    """What came of all runs of a scenario, or of some; most of a run is waiting. A function without a row is wrong too."""
    with runs_of(scenario, built) as runs:
        trial = Trial(scenario, runs, functions)
        with concurrent.futures.ThreadPoolExecutor(side_by_side) as pool:
            results = list(pool.map(trial.try_one, trial.failures(most)))
        return results + [Tried(scenario, Failure(name, 0, ""), "", "", "no row tells of it") for name in trial.without_row()]


class Sampled(Check):
    """A part of the runs of each scenario."""

    def sampled(self, scenarios, functions=FUNCTIONS):
        with library() as built:
            results = [one for scenario in scenarios for one in tried(built, scenario, functions, DRAWN, 2)]
        self.assertTrue(results)
        self.assertEqual([], ["%s, call %d: %s" % (one.text(), one.failure.number, one.fault) for one in results if one.fault])

    def of_serve(self, options, functions):
        self.sampled([Scenario(" ".join(["serve", *options]))], functions)

    @each_form
    def test_memory_and_clocks(self, options):
        self.of_serve(options, MEMORY_AND_CLOCKS)

    @each_form
    def test_reads_and_writes(self, options):
        self.of_serve(options, READS_AND_WRITES)

    @each_form
    def test_other_calls(self, options):
        self.of_serve(options, [name for name in FUNCTIONS if name not in MEMORY_AND_CLOCKS + READS_AND_WRITES])

    def test_serve_in_pieces_and_without_a_backend(self):
        self.sampled([one for one in SCENARIOS if one.command in rows.SERVES and one.only])

    def test_commands(self):
        self.sampled([one for one in SCENARIOS if one.command not in rows.SERVES])


class Counted(Check):
    def is_counted(self, options, failure):
        """A `serve` of one connection for each job ends where one job's call has failed and the other one's connection has come."""
        ports = [own_port(), own_port()]
        words = [PROGRAM, "serve", *options, "--conns", "1", "--admin", "127.0.0.1:%d" % ports[0], "default/g:80=127.0.0.1:%d" % ports[1]]
        with library() as built, built.run_of(failure) as (variables, record), bounded(words, variables) as process:
            self.assertEqual(process.stdout.readline(), READY)
            self.assertTrue(becomes(lambda: record.told().has_failed))
            is_admin = record.told().thread == 1
            with talk(ports[1] if is_admin else ports[0]):
                pass
            self.exits(process, 0)

    @each_form
    def test_an_accept_that_failed(self, options):
        for number in (1, 2):
            self.is_counted(options, Failure("accept4", number, rows.number_of("EMFILE")))

    @each_form
    def test_a_wait_that_failed(self, options):
        for number in (1, 2):
            self.is_counted(options, Failure("epoll_wait", number, rows.number_of("EINVAL")))


def print_results(results):
    """What came of the calls, how often, and what is wrong."""
    seen = collections.Counter((one.text(), one.found) for one in results if one.place)
    for (text, found), count in sorted(seen.items()):
        print("%s | %s | %d" % (text, found, count))
    for one in results:
        if one.fault:
            print("wrong: %s, call %d: %s" % (one.text(), one.failure.number, one.fault))


def print_rows(results):
    """Which outcomes of which rows came in no run, and which functions had no run at a row's place."""
    made = [(rows.row_of(one.scenario.command, one.failure.function, one.place, one.failure.way), one) for one in results if one.place]
    came, tried_there = {(row, one.found) for row, one in made}, {(row, one.failure.function) for row, one in made}
    for row in rows.ROWS:
        for outcome in row.outcomes:
            if (row, outcome) not in came:
                print("not seen: %s | %s | %s" % (" ".join(row.functions), row.place, outcome))
        for name in row.functions:
            if (row, name) not in tried_there:
                print("no run: %s | %s | %s" % (name, row.place, " ".join(row.ways)))


def main():
    begin, results = time.monotonic(), []
    with library() as built:
        for scenario in SCENARIOS:
            found = tried(built, scenario, most=None if "--whole" in sys.argv else DRAWN)
            print("%s: %d runs, %.0f seconds so far" % (scenario.name(), len(found), time.monotonic() - begin), flush=True)
            results += found
    print_results(results)
    print_rows(results)
    faults = sum(1 for one in results if one.fault)
    print("%d runs, %d of them wrong, %.0f seconds" % (len(results), faults, time.monotonic() - begin))
    sys.exit(1 if faults else 0)


if __name__ == "__main__":
    sys.dont_write_bytecode = True
    main()
