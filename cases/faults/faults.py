"""Puts faults into runs of the program on real files, and looks what stands after them. What is expected comes from the rules in docs/."""

import os
import shutil
import sys
import tempfile

import ends
import mailing
import making
import reasons
import restarting
from placing import Lost


def main():
    checks = [*making.CHECKS, *mailing.CHECKS, *restarting.CHECKS, *reasons.CHECKS, *ends.CHECKS]
    checks = [check for check in checks if check.__name__ in sys.argv[2:] or len(sys.argv) == 2]
    failed = 0
    with tempfile.TemporaryDirectory() as made:
        os.chmod(made, 0o755)
        # the program stands where other users find it, too
        program = shutil.copy(sys.argv[1], os.path.join(os.path.realpath(made), "program"))
        for check in checks:
            folder = os.path.join(os.path.realpath(made), check.__name__)
            os.mkdir(folder)
            try:
                skipped = check(program, folder)
            except Lost as fault:
                failed += 1
                print(f"faults: {check.__doc__} {fault}")
                continue
            if skipped:
                print(f"faults: left out: {check.__doc__} {skipped}")
    if not failed:
        print(f"faults: {len(checks)} checks")
    sys.exit(1 if failed else 0)


main()
