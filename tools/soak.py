#!/usr/bin/env python3
"""Plays many random scripts through the model with all its assertions on, and tells what was reached and how often.

  tools/soak.py FIRST LAST COUNT      the seeds from FIRST to LAST, COUNT calls each
"""
import collections
import sys

import axis
import random_calls

answers, ways, ticks, beds = (collections.Counter() for _ in range(4))


def state_of(axis):
    if axis.state != "Running":
        return axis.state
    return "Running, in a pause" if axis.paused else "Running"


def watched(method, name):
    def watching(self, *given):
        before, complete = state_of(self), self.flags["Move_Complete"]
        answer = method(self, *given)
        after = state_of(self)
        if self.flags["Move_Complete"] and not complete:
            after += " with Move_Complete"
        if name == "tick":
            ways[before, "tick", "", after] += 1
            ticks["all"] += 1
            ticks["sending"] += answer != 0
        else:
            what = {"block": self.command or "block without a single command", "event": f"event {given[0]}", "setup": "set-up"}[name]
            if name == "event" and not 1 <= given[0] <= 7:
                what = "event of another code"
            answers[name, answer] += 1
            ways[before, what, answer, after] += 1
        code, words = self.reading([7] * 10)
        assert code == 0 and all(-32_768 <= word <= 32_767 for word in words)
        return answer
    return watching


def main():
    first, last, count = map(int, sys.argv[1:])
    for name in ["setup", "block", "event", "tick"]:
        setattr(axis.Axis, name, watched(getattr(axis.Axis, name), name))
    calls = 0
    for seed in range(first, last + 1):
        drawer = random_calls.Drawer(seed, count)
        try:
            drawer.all()
        except AssertionError:
            print(f"seed {seed} breaks a promise after {drawer.calls} calls:", drawer.lines[-1])
            raise
        calls += drawer.calls
        beds[drawer.lines[0]] += 1
    print(f"{last - first + 1} scripts, {calls} calls, {ticks['all']} ticks of which {ticks['sending']} send steps; no assertion failed")
    print("\nanswers")
    for (name, answer), times in sorted(answers.items()):
        print(f"  {name} {answer}: {times}")
    print("\nbeds")
    for bed, times in sorted(beds.items()):
        print(f"  {bed}: {times}")
    print("\nstate before, call, answer, state after")
    for (before, what, answer, after), times in sorted(ways.items(), key=str):
        print(f"  {before} | {what} | {answer} | {after}: {times}")


main()
