"""Libraries that are preloaded, and fail or refuse calls of the program that is tested."""
import os
import subprocess

from calls import answer

TESTS = os.path.dirname(os.path.dirname(os.path.realpath(__file__)))
# the libraries, each with the variable that names the file that it makes where it fails a call
MARKS = {"ports": "FAILED", "refuse": "REFUSED", "refuse-threads": "REFUSED_THREAD"}


def built(folder, name):
    """Compiles tests/NAME.c, and returns the library, in that folder."""
    library = os.path.join(folder, f"{name}.so")
    command = [os.environ.get("CC", "cc"), "-O2", "-shared", "-fPIC", "-o", library]
    subprocess.run([*command, os.path.join(TESTS, f"{name}.c"), "-ldl"], check=True)
    return library


class Shim:
    """One or more preloaded libraries, each with a file that it makes where it fails a call."""

    def __init__(self, folder, *names):
        self.libraries = " ".join(built(folder, name) for name in names)
        self.files = {MARKS[name]: os.path.join(folder, name) for name in names}

    def answer(self, binary, case, **failing):
        """What the program answers to a case where these calls fail, and whether each library failed one."""
        for file in self.files.values():
            if os.path.exists(file):
                os.remove(file)
        around = {**self.files, **{name: str(number) for name, number in failing.items()}}
        told = answer(binary, case.words, case.given, env={**os.environ, "LD_PRELOAD": self.libraries, **around})
        return told, *(os.path.exists(file) for file in self.files.values())
