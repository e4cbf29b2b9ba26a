#!/usr/bin/env python3
"""Runs rdma-core's own tests, and prints a line for each that passes or fails: core_tests.py FOLDER [TEST..], where FOLDER has rdma-core's
tests. They take a device's address from /sys, where this device is not: here it is told."""
import os
import sys
import unittest


class Told(unittest.TextTestResult):
    """Prints `pass`, `fail` or `skip` and the test's name."""

    def tell(self, word, test):
        print(word, test.id().removeprefix("tests."), flush=True)

    def addSuccess(self, test):
        super().addSuccess(test)
        self.tell("pass", test)

    def addFailure(self, test, error):
        super().addFailure(test, error)
        self.tell("fail", test)

    def addError(self, test, error):
        super().addError(test, error)
        self.tell("fail", test)

    def addSkip(self, test, why):
        super().addSkip(test, why)
        self.tell("skip", test)


def main(folder, names):
    folder = os.path.abspath(folder)
    sys.path[:0] = [os.path.dirname(folder), folder]
    sys.argv[1:] = []
    from args_parser import parser
    from tests import base

    def told(self, device, port, index):
        self.args.append([device, port, index, "127.0.0.1", "00:00:00:00:00:00"])

    base.RDMATestCase._get_ip_mac = told
    parser.parse_args()
    loader = unittest.TestLoader()
    if names:
        suite = loader.loadTestsFromNames([f"tests.{name}" for name in names])
    else:
        suite = loader.loadTestsFromModule(__import__("tests", fromlist=["x"]))
    unittest.TextTestRunner(stream=sys.stderr, resultclass=Told, verbosity=0).run(suite)


if __name__ == "__main__":
    main(sys.argv[1], sys.argv[2:])
