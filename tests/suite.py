"""What the Python tests share: how a file's tests are run. The first failure ends them, and the exit status tells the gate."""
import sys
import unittest


def run(usage=None, done=None):
    """With `usage` the arguments were missing: it is printed, and nothing runs. `done` says after a good run what was tested."""
    if usage:
        print(f"usage: {usage}", file=sys.stderr)
        return 2
    tests = unittest.defaultTestLoader.loadTestsFromModule(sys.modules["__main__"])
    result = unittest.TextTestRunner(verbosity=0, failfast=True).run(tests)
    if done and result.wasSuccessful():
        print(f"{done}, {result.testsRun} tests")
    return 0 if result.wasSuccessful() else 1
