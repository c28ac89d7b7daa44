"""What the tools here share of the toolchain's own command `rt`: it is loaded as a module, and what its parts cost is counted."""
import importlib.machinery
import importlib.util
import os
import shutil
import subprocess
import sys
import threading
from concurrent.futures import ThreadPoolExecutor

TOP = os.path.dirname(os.path.dirname(os.path.abspath(__file__)))


def load_rt():
    """The toolchain's own gate, as a module. It takes the sum of a crate's sources anew for each chain of crates that leads to it, of which there are thousands. Here each
    is taken once."""
    file = os.path.realpath(shutil.which("rt"))
    sys.path.insert(0, os.path.dirname(file))
    loader = importlib.machinery.SourceFileLoader("rt_gate", file)
    rt = importlib.util.module_from_spec(importlib.util.spec_from_loader("rt_gate", loader))
    loader.exec_module(rt)
    stamp, known = rt.rtlib.Crate.stamp, {}

    def remembered(crate):
        if crate.folder not in known:
            known[crate.folder] = stamp(crate)
        return known[crate.folder]

    rt.rtlib.Crate.stamp = remembered
    return rt


class Meter(threading.local):
    """The sum, in seconds, into which this thread counts the children that it waits for."""

    sum = None


meter = Meter()


def count_children():
    """From here on, what `metered` calls counts the processes that it starts, also those of its threads."""
    subprocess.Popen._try_wait = wait_and_count
    ThreadPoolExecutor.submit = submit_and_count(ThreadPoolExecutor.submit)


def wait_and_count(self, flags):
    try:
        pid, status, used = os.wait4(self.pid, flags)
    except ChildProcessError:
        return self.pid, 0
    if pid == self.pid and meter.sum is not None:
        meter.sum[0] += used.ru_utime + used.ru_stime
    return pid, status


def submit_and_count(submit):
    """A pool's threads count into the sum of the thread that gave them their work."""

    def counted(pool, call, *given):
        sum_ = meter.sum

        def work():
            meter.sum = sum_
            return call(*given)

        return submit(pool, work)

    return counted


def metered(call):
    """What the call gives, and the seconds of processor of all children that it waited for."""
    outer, meter.sum = meter.sum, [0.0]
    try:
        return call(), meter.sum[0]
    finally:
        if outer is not None:
            outer[0] += meter.sum[0]
        meter.sum = outer
