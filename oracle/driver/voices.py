"""The voices that answer questions: the original in two builds, the reference, and any program at a path."""

import os
import subprocess
import sys
from pathlib import Path

ORACLE = Path(__file__).resolve().parent.parent
TARGET = ORACLE / "target"
BUILDS = {"rust": "checked", "release": "release"}
USAGE_STATUS = 2


def stop(message):
    sys.stderr.write(message + "\n")
    raise SystemExit(USAGE_STATUS)


def build(src):
    """Builds the original from the folder given; there is no default."""
    if src is None:
        stop("the original's folder is needed here: --src SRC")
    done = subprocess.run([ORACLE / "build", src, TARGET], stdout=subprocess.DEVNULL)
    if done.returncode != 0:
        raise SystemExit(done.returncode)


def harness(*words):
    """What the harness prints."""
    return subprocess.run([TARGET / "checked", *words], stdout=subprocess.PIPE, check=True).stdout


def command(voice):
    """The command that reads questions and writes answers."""
    if voice in BUILDS:
        return [TARGET / BUILDS[voice], "answer"]
    if voice == "reference":
        return [sys.executable, "-m", "reference.answers"]
    if os.access(voice, os.X_OK) and not os.path.isdir(voice):
        return [os.path.abspath(voice)]
    stop(f"{voice}: neither rust, release, reference nor a program that can be run")


def answers(voice, questions):
    """The voice's answers, one for each question."""
    asked = "".join(question + "\n" for question in questions).encode()
    done = subprocess.run(command(voice), input=asked, stdout=subprocess.PIPE, cwd=ORACLE)
    if done.returncode != 0:
        stop(f"{voice} ended with status {done.returncode}")
    given = done.stdout.decode().splitlines()
    if len(given) != len(questions):
        stop(f"{voice} gave {len(given)} answers to {len(questions)} questions")
    return given


def generated(seed, first, count):
    """Questions about some positions of a seed, as pairs of family and question."""
    return pairs(harness("generate", str(seed), str(first), str(count)))


def all_tables():
    return pairs(harness("tables"))


def pairs(printed):
    return [tuple(row.split(" ", 1)) for row in printed.decode().splitlines()]
