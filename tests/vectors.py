"""Holds the stored output of the program `vectors` to what is written apart: python3 tests/vectors.py

The gate compares what the program prints with crates/vectors/stdout. Here the names and byte strings are read out of its source, and that file
is checked: the texts' answers by the solver and the reader, the plans' by the reader and the machine."""
import ast
import pathlib
import re

import compare
import damaged

CRATE = pathlib.Path(__file__).parent.parent / "crates" / "vectors"
FIRST = re.compile(r'^    show\(\s*rt,\s*(b"[^"]*",)?', re.MULTILINE)
PAIR = re.compile(r'\(\s*"([^"]*)",\s*(b?"[^"]*"),?\s*\)')


def literal(text):
    """The bytes of a literal, be it text or bytes."""
    return ast.literal_eval(text if text.startswith("b") else "b" + text)


def shown(name):
    """The name that stands before each answer, and the byte strings that it runs: those that are run first, if the call has some, and its own."""
    source = (CRATE / "src" / name).read_text()
    calls = list(FIRST.finditer(source))
    found = []
    for call, end in zip(calls, [call.start() for call in calls[1:]] + [len(source)]):
        first = [literal(call.group(1)[:-1])] if call.group(1) else []
        found += [(name + "\n", first + [literal(data)]) for name, data in PAIR.findall(source[call.end():end])]
    return found


def answers(output, names):
    """What stands after each name, up to the next."""
    found = []
    for name, after in zip(names, names[1:] + [None]):
        assert output.startswith(name), (name, output[:80])
        output = output[len(name):]
        end = len(output) if after is None else output.find("\n" + after) + 1
        assert after is None or end > 0, after
        found.append(output[:end])
        output = output[end:]
    return found


def main():
    texts, plans = shown("texts.rt"), shown("plans.rt")
    assert texts and plans
    found = answers((CRATE / "stdout").read_text(), [name for name, _ in texts + plans])
    for (name, (data,)), answer in zip(texts, found):
        faults = compare.faults(data, answer)
        assert not faults, (name, faults)
    for (name, (*first, data)), answer in zip(plans, found[len(texts):]):
        expected = damaged.expected(data, *first)
        assert answer == expected, (name, answer, expected)
    print(f"{len(texts)} texts and {len(plans)} plans of the gate: the stored output is as the solver, the readers and the machine written apart say")


if __name__ == "__main__":
    main()
