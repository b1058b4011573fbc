#!/usr/bin/env python3
"""Writes what each scenario must come to, by the independent model of the rules, and tells what the scenarios cover together.

  tools/scenarios.py         writes NAME.expected beside each tools/scenarios/NAME.calls
"""
import collections
import pathlib

import axis
from calls import played

STATES = ["Idle", "Running", "Holding", "Held", "Programming"]


def main():
    met, answers = collections.Counter(), collections.Counter()
    plain_refusal = axis.Axis.refusal

    def refusal(self, command, words):
        met[self.state, command] += 1
        return plain_refusal(self, command, words)

    axis.Axis.refusal = refusal
    for name in ["setup", "block", "event"]:
        plain = getattr(axis.Axis, name)

        def counting(self, given, plain=plain, name=name):
            answer = plain(self, given)
            answers[answer] += 1
            return answer

        setattr(axis.Axis, name, counting)

    plain_reading = axis.Axis.reading
    bits = collections.defaultdict(set)  # the values that a bit of word 0 or 1 had in readings

    def reading(self, buffer):
        answer, words = plain_reading(self, buffer)
        answers[answer] += 1
        if answer == 0:
            for word, number in [(0, number) for number in range(16)] + [(1, number) for number in range(16)]:
                bits[word, number].add(axis.bit(words[word], number))
        return answer, words

    axis.Axis.reading = reading

    scripts = sorted((pathlib.Path(__file__).resolve().parent / "scenarios").glob("*.calls"))
    for script in scripts:
        printed, _ = played(script.read_text().split("\n"))
        script.with_suffix(".expected").write_text("\n".join(printed) + "\n")
    print(f"{len(scripts)} scenarios")
    print("answers:", ", ".join(f"{answer} ({times})" for answer, times in sorted(answers.items())))
    for command in axis.COMMANDS.values():
        print(f"{command}:", ", ".join(f"{state} {met[state, command]}" for state in STATES))
    for word, number in [(0, number) for number in range(14) if number != 4] + [(1, number) for number in [0, 1, 2, 7]]:
        if len(bits[word, number]) < 2:
            print(f"not covered: both values of bit {number} of word {word}")
    for state in STATES:
        for command in axis.COMMANDS.values():
            # The Program bit is kept while programming, so there it cannot rise.
            if not met[state, command] and (state, command) != ("Programming", "Program"):
                print(f"not covered: {command} while {state}")


main()
