"""The tests of the gate itself, as tasks of the gate. `python3 -m unittest discover gate
'*_test.py'` runs them alone."""
import unittest

from rounds import Killed, Result


class Outcome(unittest.TestResult):
    """What became of each test, and of each part that a test names."""

    def __init__(self):
        super().__init__()
        self.passed, self.was_killed = [], False

    def addSuccess(self, test):
        self.passed.append(test)

    def addSubTest(self, test, subtest, err):
        super().addSubTest(test, subtest, err)
        if err is None:
            self.passed.append(subtest)

    def addError(self, test, err):
        super().addError(test, err)
        self.was_killed |= issubclass(err[0], Killed)

    def results(self):
        passed = [Result(True, it.id(), "as it must be") for it in self.passed]
        return passed + [Result(False, it.id(), said) for it, said in self.failures + self.errors]


class OwnTest:
    """A class of tests of the gate itself, which the gate runs as it runs the rounds of a crate's
    edits."""

    def __init__(self, tests):
        self.tests, self.name, self.results, self.seconds = tests, tests.name, [], 0.0

    def summary(self):
        return f"{len(self.results)} looks"

    def run(self):
        told = Outcome()
        unittest.defaultTestLoader.loadTestsFromTestCase(self.tests).run(told)
        self.results = told.results() or [Result(False, self.name, "there is no test")]
        self.seconds = self.tests.seconds
        if told.was_killed:
            raise Killed
