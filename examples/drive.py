#!/usr/bin/env python3
"""usage: examples/drive.py PROGRAM examples/three.plan

Drives the simulator over a pipe. How many calls can be connected at once from NORTH to code 24?
And after CESO1 has failed? Each event depends on the replies to those before it."""
import itertools
import subprocess
import sys


class Simulator:
    """A telexplan that runs. It replies to each event before it waits for the next one."""

    def __init__(self, program, plan):
        self.process = subprocess.Popen([program], stdin=subprocess.PIPE, stdout=subprocess.PIPE, text=True)
        with open(plan) as text:
            self.send(text.read())
        self.send("SCRIPT 1")

    def send(self, text):
        self.process.stdin.write(text + "\n")
        self.process.stdin.flush()

    def read(self):
        """The words of the next line that the program prints."""
        words = self.process.stdout.readline().split()
        # Without a line the program has ended, and standard error has the reason.
        return words or sys.exit(self.process.wait())

    def apply(self, event):
        """The reply to an event, and the tickets of the calls that it ended."""
        self.send(event)
        reply = self.read()
        return reply, [self.read() for _ in range(calls_ended(reply))]

    def close(self):
        """Ends the script: the last line that the program prints."""
        self.send("END")
        self.process.stdin.close()
        return self.read()


def calls_ended(reply):
    """How many calls the event ended: so many tickets follow its reply."""
    if reply[0] == "LOST":
        return int(reply[1])
    if reply[0] == "HEADON":
        return reply.count("NC")
    return 1 if reply[0] in ("ANSWERED", "CLEARED") else 0


def release(simulator, tickets):
    """Releases the circuits of calls that ended. Those of a group that failed need no release, and it is refused."""
    for ticket in tickets:
        for circuit in [word for word in ticket if "." in word]:
            simulator.apply(f"RELEASED {circuit}")


def call(simulator, caller, keyed):
    """Leads a call from exchange to exchange: the reply by which it is connected, or answered."""
    (_, number), _ = simulator.apply(f"KEY {caller} {keyed}")
    reply, tickets = simulator.apply(f"ROUTE {number}")
    while reply[0] == "SEIZED":
        simulator.apply(f"CONFIRM {number}")
        reply, tickets = simulator.apply(f"ROUTE {number}")
    release(simulator, tickets)
    return reply


def call_until_answered(simulator, lines):
    """Sets up calls between further lines until one is answered with a service code: how many were connected, and the code."""
    for connected in itertools.count():
        line = next(lines)
        reply = call(simulator, f"22 {31000 + line}", f"24{51000 + line}")
        if reply[0] == "ANSWERED":
            return connected, reply[1]


def main(program, plan):
    simulator, lines = Simulator(program, plan), itertools.count()
    connected, service = call_until_answered(simulator, lines)
    print(f"{connected} calls are connected, and the next one is answered {service}.")
    reply, tickets = simulator.apply("FAIL CESO1")
    release(simulator, tickets)
    print(f"CESO1 fails, and {reply[1]} calls are lost.")
    connected, service = call_until_answered(simulator, lines)
    print(f"{connected} more calls are connected, and the next one is answered {service}.")
    print(*simulator.close())


if __name__ == "__main__":
    main(*sys.argv[1:]) if len(sys.argv) == 3 else sys.exit(__doc__)
