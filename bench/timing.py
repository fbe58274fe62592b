"""The programs that are measured, and what they take."""
import os
import subprocess
import sys

HERE = os.path.dirname(os.path.abspath(__file__))
# the built program, where no other is named
SIROB = os.path.join(HERE, "..", "crates", "sirob", "out", "sirob")


def build_plain(room):
    """Builds the plain Rust program in a folder, and returns its path."""
    plain = os.path.join(room, "plain")
    source = os.path.join(HERE, "plain", "main.rs")
    subprocess.run(["rustc", "-O", "--edition", "2021", source, "-o", plain], check=True)
    return plain


def used(command, source, sink, ends):
    """Seconds of wall time, and the use of resources, of a program that ends as it may."""
    with open(source, "rb") as stdin, open(sink, "wb") as stdout:
        before = os.times().elapsed
        child = subprocess.Popen(command, stdin=stdin, stdout=stdout)
        _, status, usage = os.wait4(child.pid, 0)
        after = os.times().elapsed
    if os.waitstatus_to_exitcode(status) not in ends:
        sys.exit("%s ended with %d on %s" % (command[0], os.waitstatus_to_exitcode(status), source))
    return after - before, usage


def timed(command, source, sink, ends=(0,)):
    """Seconds of wall time, and MB at the highest, of a program that ends as it may."""
    seconds, usage = used(command, source, sink, ends)
    return seconds, usage.ru_maxrss / 1024


def processor_time(command, source, sink, ends=(0,)):
    """Seconds of the processor that a program takes that ends as it may."""
    _, usage = used(command, source, sink, ends)
    return usage.ru_utime + usage.ru_stime
