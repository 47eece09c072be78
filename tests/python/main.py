"""Runs the parts, and prints what failed and how many passed."""
import importlib
import os
import sys
import time
import traceback

HERE = os.path.dirname(os.path.abspath(__file__))
PARTS = ["cases", "damages", "pages", "calls", "ranges", "files", "words", "installed", "papers"]


class Count:
    """What passed and what failed."""

    def __init__(self):
        self.passed = self.failed = 0

    def holds(self, right, what):
        if right:
            self.passed += 1
        else:
            self.failed += 1
            print("FAILED", what)
        return right

    def same(self, due, found, what):
        return self.holds(due == found, f"{what}\n  due   {due!r}\n  found {found!r}")

    def raises(self, kind, call, what):
        """The exception of this kind that the call raises."""
        try:
            found = call()
        except kind as error:
            self.passed += 1
            return error
        self.holds(False, f"{what}: {kind.__name__} is due, and {found!r} is answered")


def main(parts):
    os.chdir(os.path.dirname(os.path.dirname(HERE)))
    sys.path.insert(0, os.path.abspath("python"))
    count = Count()
    for part in parts or PARTS:
        before, begun, seconds = count.passed, count.failed, time.process_time()
        try:
            importlib.import_module(part).check(count)
        except Exception:
            count.holds(False, f"{part} ended early\n{traceback.format_exc()}")
        print(f"{part}: {count.passed - before} passed, {count.failed - begun} failed, {time.process_time() - seconds:.1f} s")
    print(f"{count.passed} passed, {count.failed} failed")
    return count.failed > 0


if __name__ == "__main__":
    sys.exit(main(sys.argv[1:]))
