"""What the scripts that ask a program of this repository share: its command, and the ground of their pictures. For
tests/drift.py, tests/rtt_drift.py and tests/estimate.py also the program `serve` (crates/serve), asked frames of calls
(oracle/README.md), and their arguments.

    with started(program()) as port:
        for answer in asked(port, state, calls): ..

The variable PORT, where it is set, is the command that runs the program, seen from the root of the repository."""

import os
import struct
import subprocess
import sys

from words import ANSWER_WORDS, CALL_WORDS, NUMBER_IN_CALL, ROOT, STATE_WORDS, WORD_BYTES, call

# Calls in a frame, and the words of an answer with the state after it.
FRAME = 100
ANSWERED = ANSWER_WORDS + STATE_WORDS


class Fault(Exception):
    """Why something can't be done, in words."""


def program(name="serve"):
    """The words of the command that runs a program, as it was built last."""
    given = os.environ.get("PORT", "").split()
    if given:
        return given
    script = os.path.join(ROOT, "tests", "program.sh")
    asked = subprocess.run(["sh", script, name], stdout=subprocess.PIPE, stderr=subprocess.PIPE)
    words = asked.stdout.decode(errors="replace").split()
    if asked.returncode != 0 or not words:
        raise Fault(f"there is no command for the program `{name}` on this machine: tests/program.sh gives none")
    if not os.path.exists(os.path.join(ROOT, words[-1])):
        raise Fault(f"{words[-1]} is not built yet: `sh tests/build.sh {name}` proves and builds it")
    return words


def started(command):
    """A port that waits for frames."""
    return subprocess.Popen(command, cwd=ROOT, stdin=subprocess.PIPE, stdout=subprocess.PIPE)


def number_alone(number):
    """The words of a call of which nothing but the number is told."""
    words = [0] * CALL_WORDS
    words[NUMBER_IN_CALL] = number
    return words


def asked(port, state, calls):
    """The words of each answer to at most FRAME calls, the first of which is made in this state."""
    filled = calls + [number_alone(call.BDP0)] * (FRAME - len(calls))
    frame = list(state) + [word for words in filled for word in words]
    port.stdin.write(struct.pack(f"<{len(frame)}Q", *frame))
    port.stdin.flush()
    size = WORD_BYTES * ANSWERED * FRAME
    answers = port.stdout.read(size)
    if len(answers) < size:
        raise SystemExit("the port ended before it had answered")
    words = struct.unpack(f"<{ANSWERED * FRAME}Q", answers)
    return [words[at : at + ANSWERED] for at in range(0, ANSWERED * len(calls), ANSWERED)]


def drawn(path, height, lines):
    """Writes a picture: these lines on a white ground."""
    size, letters = f'width="900" height="{height}"', 'font-family="sans-serif" font-size="12"'
    ground = [f'<svg xmlns="http://www.w3.org/2000/svg" {size} {letters}>', f'<rect {size} fill="white"/>']
    with open(path, "w") as file:
        file.write("\n".join([*ground, *lines, "</svg>"]) + "\n")


def panel(left, title, shown, across, bounds, runs):
    """One drawing of how far a number is from its exact value: between the least and the largest difference shown, and
    from 0 to so many across. A bound is a difference, how it is written, and the points of another bound, if there is
    one; a run is a color and its points."""
    width, height, top = 430, 300, 56
    least, largest = shown
    x = lambda k: left + 46 + k * (width - 66) / across
    y = lambda d: top + (largest - d) * height / (largest - least)
    line = lambda points: " ".join(f"{x(k):.1f},{y(d):.1f}" for k, d in points)
    level = lambda d: f'x1="{x(0):.1f}" y1="{y(d):.1f}" x2="{x(across):.1f}" y2="{y(d):.1f}"'
    beside = lambda d, text: f'<text x="{x(0) - 6:.1f}" y="{y(d) + 4:.1f}" text-anchor="end">{text}</text>'
    out = [f'<text x="{left + 46}" y="{top - 14}" font-weight="bold">{title}</text>']
    out += [f'<line {level(0)} stroke="#888"/>', beside(0, "0")]
    for color, points in runs:
        out.append(f'<polyline points="{line(points)}" fill="none" stroke="{color}" stroke-width="1.2"/>')
    for bound, written, points in bounds:
        out += [f'<line {level(bound)} stroke="#b00" stroke-dasharray="6 4"/>', beside(bound, written)]
        if points:
            out.append(f'<polyline points="{line(points)}" fill="none" stroke="#06c" stroke-dasharray="2 3"/>')
    for k in range(0, across + 1, across // 5):
        out.append(f'<text x="{x(k):.1f}" y="{top + height + 18}" text-anchor="middle">{k}</text>')
    return out


def by_arguments(compare, usual, picture):
    """Does what the arguments say: [SEED [NUMBER]], where the usual number stands for none, or --picture FILE.svg."""
    try:
        if sys.argv[1:2] == ["--picture"]:
            picture(sys.argv[2])
            return
        seed = int(sys.argv[1]) if len(sys.argv) > 1 else 1
        compare(seed, int(sys.argv[2]) if len(sys.argv) > 2 else usual)
    except Fault as fault:
        raise SystemExit(str(fault)) from None
