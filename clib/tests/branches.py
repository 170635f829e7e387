#!/usr/bin/env python3
"""branches.py: how many branches of each file of the package squitter its tests take, by python3-coverage; ends with
status 1 where that is less than 95 percent. Needs NumPy, pandas and coverage."""
import os
import re
import subprocess
import sys
import tempfile

HERE = os.path.dirname(os.path.abspath(__file__))
PACKAGE = os.path.join(os.path.dirname(HERE), "squitter")
TESTS = [["test_squitter.py"], ["test_hearing.py"], ["test_quick.py"], ["test_results.py"], ["test_errors.py"],
         ["test_feed.py"], ["test_order.py"], ["test_source.py"], ["test_batch.py", "2000"], ["test_arrays.py"],
         ["test_frames.py"]]
ENOUGH = 95


def main() -> int:
    with tempfile.TemporaryDirectory() as work:
        tool = [sys.executable, "-m", "coverage"]
        where = {**os.environ, "COVERAGE_FILE": os.path.join(work, "data")}
        for name, *words in TESTS:
            run = [*tool, "run", "--branch", "--append", f"--source={PACKAGE}", os.path.join(HERE, name), *words]
            subprocess.run(run, env=where, check=True, stderr=subprocess.DEVNULL)
        report = subprocess.run([*tool, "report", "--show-missing"], env=where, capture_output=True, text=True,
                                check=True).stdout
    status = 0
    for path, share, missing in re.findall(r"^(\S+\.py)(?: +\d+){4} +(\d+)%(.*)$", report, re.M):
        print(f"{os.path.basename(path)}: {share} % of the branches{missing}")
        status |= int(share) < ENOUGH
    return status


if __name__ == "__main__":
    sys.exit(main())
