"""The crates of the repository, as crates.txt has them, the toolchain, and how many checks run side by side.

    scripts/crates.py   prints how many proofs run side by side on this machine
"""
import os
import shutil
import sys

# what one proof may take
PROOF_MEMORY = 5_000_000_000


def kit():
    """Returns the toolchain's folder, by its command `rt`."""
    rt = shutil.which("rt")
    if rt is None:
        sys.exit("the toolchain's command rt is not on the path")
    return os.path.dirname(os.path.dirname(os.path.realpath(rt)))


def lines_of_crates(root):
    """Returns the line of each crate, by its name, in the file's order."""
    lines = {}
    with open(f"{root}/crates.txt", encoding="utf-8") as text:
        for line in text:
            head, found, _ = line.partition("#")[0].partition(":")
            if found:
                lines[head.split()[0]] = line
    return lines


def uses_of_crates(root):
    """Returns what each crate uses: crates of the repository, and of the toolchain."""
    return {name: line.partition("#")[0].partition(":")[2].split() for name, line in lines_of_crates(root).items()}


def below(uses, name):
    """Returns the repository's crates below one, each behind those that it uses."""
    return dict.fromkeys(it for dep in uses[name] if dep in uses for it in (*below(uses, dep), dep))


def free_memory():
    """Returns the bytes that are free, with what the system keeps of files, which it gives back."""
    with open("/proc/meminfo", encoding="ascii") as lines:
        return next(int(line.split()[1]) for line in lines if line.startswith("MemAvailable")) * 1024


def lanes(memory):
    """Returns how many go side by side that take so many bytes each: as many as there are cores, and as memory holds;
    or as many as RT_JOBS says."""
    asked = os.environ.get("RT_JOBS", "")
    fit = min(len(os.sched_getaffinity(0)), free_memory() // memory)
    return int(asked) if asked.isdigit() and int(asked) else max(1, fit)


if __name__ == "__main__":
    print(lanes(PROOF_MEMORY))
