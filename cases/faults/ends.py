"""Standard streams that do not wait themselves."""

import os
import subprocess
import time

from placing import place, run, wanted

SCRIPT = b"SELECT a.id, b.id, c.id FROM cust AS a JOIN cust AS b ON 1 = 1 JOIN cust AS c ON 1 = 1;\n"
ROWS = 40


def lines_of_many(folder, program):
    """The lines of the script, by a run whose streams wait."""
    rows = b"".join(b"INSERT INTO cust VALUES (%d, 'C', 1);\n" % at for at in range(2, ROWS))
    wanted(run([program, "sql", "c1"], folder, rows + b"COMMIT;\n")[0], 0, "rows")
    return run([program, "sql", "c1"], folder, SCRIPT)[1]


def an_output_that_does_not_wait(program, folder):
    """An output that does not wait takes all, as soon as it is read."""
    place(program, folder)
    hoped = lines_of_many(folder, program)
    reading, writing = os.pipe()
    os.set_blocking(writing, False)
    with subprocess.Popen([program, "sql", "c1"], cwd=folder, stdin=subprocess.PIPE, stdout=writing, stderr=subprocess.PIPE) as process:
        os.close(writing)
        process.stdin.write(SCRIPT)
        process.stdin.close()
        time.sleep(0.5)
        with open(reading, "rb") as pipe:
            found = pipe.read()
        said = process.stderr.read()
    wanted((process.returncode, len(found), found == hoped, said), (0, len(hoped), True, b""), "sql")


def an_input_that_does_not_wait(program, folder):
    """An input that does not wait is read to its end."""
    place(program, folder)
    reading, writing = os.pipe()
    os.set_blocking(reading, False)
    with subprocess.Popen([program, "sql", "c1"], cwd=folder, stdin=reading, stdout=subprocess.PIPE, stderr=subprocess.PIPE) as process:
        os.close(reading)
        for piece in (b"SELECT id ", b"FROM cust;\n"):
            time.sleep(0.3)
            try:
                os.write(writing, piece)
            except BrokenPipeError:
                break
        os.close(writing)
        printed, said = process.communicate()
    wanted((process.returncode, printed, said), (0, b"1\n1 rows\n", b""), "sql")


CHECKS = [an_output_that_does_not_wait, an_input_that_does_not_wait]
