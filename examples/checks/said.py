"""What the program writes for the cases of a table, and how it ends, each case in a folder of its own files. Usage, at the top of the repository:

said.py SHIM PROGRAM TABLES [GROUP..]    the cases of these groups, or of all of them; TABLES is a module beside this one, SHIM is refusals.c, compiled

A table has CASES: for each group, by its name in words, its cases, or a function that returns them when it is given `run`, by which it can ask the
program itself. A case has the words, the files with their texts, the status, and what is on standard output and on standard error. No allocation may be
refused: there is no limit, so one that is refused was far too large. A line is printed for each case that differs, and for each group the
number of its cases. The status is 0 if none differs and no group is empty."""
import importlib
import os
import resource
import signal
import subprocess
import sys
import tempfile

SHOWN = 300  # characters of what is wanted and of what came
MOST = 60  # seconds of processor of a run: then it hangs


def bytes_of(text):
    return text.encode() if isinstance(text, str) else text


def limit():
    resource.setrlimit(resource.RLIMIT_CPU, (MOST, resource.RLIM_INFINITY))


def runner(shim, program, folder, asked):
    """Returns `run`: the status, the standard output and the standard error of the program, called with these words in the folder, which has these
    files and no other one. The status is in words where an allocation was refused or the run took too long."""
    env = {**os.environ, "LD_PRELOAD": shim, "ASKED": asked}

    def run(words, files):
        for name in os.listdir(folder):
            os.remove(os.path.join(folder, name))
        for name, text in files.items():
            with open(os.path.join(folder, name), "wb") as file:
                file.write(bytes_of(text))
        with open(asked, "w") as file:
            file.write("0 0 0")
        ended = subprocess.run([program, *words], cwd=folder, env=env, preexec_fn=limit, stdin=subprocess.DEVNULL, capture_output=True)
        status = f"over {MOST} seconds of processor" if ended.returncode == -signal.SIGXCPU else ended.returncode
        with open(asked) as file:
            refused = int(file.read().split()[1])
        return f"{refused} allocations refused, status {status}" if refused else status, ended.stdout, ended.stderr

    return run


def differing(run, group, cases):
    """Runs the cases and prints those that differ; returns how many cases there are, and how many differ."""
    count = wrong = 0
    for words, files, status, out, err in cases:
        count += 1
        wanted, came = (status, bytes_of(out), bytes_of(err)), run(words, files)
        if came != wanted:
            wrong += 1
            print(f"FAILED {group}, case {count}, {' '.join(words)}: wanted {str(wanted)[:SHOWN]}, came {str(came)[:SHOWN]}")
    return count, wrong


def main(shim, program, tables, *groups):
    table, failed = importlib.import_module(tables).CASES, False
    with tempfile.TemporaryDirectory() as folder, tempfile.TemporaryDirectory() as other:
        run = runner(os.path.abspath(shim), os.path.abspath(program), folder, os.path.join(other, "asked"))
        for group in groups or table:
            cases = table.get(group, [])
            count, wrong = differing(run, group, cases(run) if callable(cases) else cases)
            print(f"{group}: {count} cases" if count else f"FAILED {group}: it has no case")
            failed = failed or wrong > 0 or count == 0
    return failed or not table


if __name__ == "__main__":
    sys.exit(main(*sys.argv[1:]))
