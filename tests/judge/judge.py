#!/usr/bin/env python3
"""usage: tests/judge/judge.py [--program PATH] [--jobs N] [--only WORD] [--spoil]

Judges what the built program answers to small plans by brute force: goes all walks, makes all mixtures, tries all routings, and compares what docs/FORMATS.md and
docs/HEADLINE.md say of them with what is printed. Prints a line for each topic, and where the program differs the command that shows it. Then it spoils answers in many
ways, each of which has to be refused. The status is 1 if an answer differs, or if a spoiled one is taken.

--only judges the topics with this word in their names and spoils nothing, and --spoil spoils alone."""
import argparse
import os
import sys
from multiprocessing import Pool
from time import process_time

from cases import TOPICS
from program import Program
from spoils import SPOILS, try_spoil
from walks import WRONG

TOP = os.path.dirname(os.path.dirname(os.path.dirname(os.path.abspath(__file__))))


def judge_topic(path, topic):
    """Judges the cases of a topic. Answers whether none differs, and what is to be told."""
    program, plans, shown, began = Program(path), 0, [], process_time()
    for count, judge in TOPICS[topic]():
        plans += count
        try:
            judge(program)
        except WRONG as it:
            shown.append(f"{it!r}\n{program.show(str(it))}")
    program.end()
    head = f"{topic}: {plans:,} plans, {program.runs:,} runs, {len(shown)} differ ({process_time() - began:.1f} s)"
    return not shown, "\n".join([head, *shown[:3]])


def do_work(work):
    return work[0](*work[1:])


def main():
    parser = argparse.ArgumentParser(description=__doc__, formatter_class=argparse.RawDescriptionHelpFormatter)
    parser.add_argument("--program", default=os.path.join(TOP, "crates/telexplan/out/telexplan"))
    parser.add_argument("--jobs", type=int, default=os.cpu_count())
    parser.add_argument("--only", default="")
    parser.add_argument("--spoil", action="store_true")
    words = parser.parse_args()
    topics = [] if words.spoil else [it for it in TOPICS if words.only in it]
    spoils = [] if words.only else range(len(SPOILS))
    works = [(judge_topic, words.program, it) for it in topics] + [(try_spoil, words.program, it) for it in spoils]
    wrong = 0
    with Pool(words.jobs) as pool:
        for is_right, told in pool.imap(do_work, works):
            print(told, flush=True)
            wrong += not is_right
    return 1 if wrong else 0


if __name__ == "__main__":
    sys.exit(main())
