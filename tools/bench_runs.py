"""Runs the benchmark several times: usage bench_runs.py RUNS PROGRAM [WORD..]

Prints every run as it comes, and after more than one the median of each row's ratios, with the lowest and the highest.
"""
import statistics
import subprocess
import sys

HEAD = ["what", "size", "unit", "ours", "baseline", "ratio"]


def fail(text):
    print(f"bench: {text}", file=sys.stderr)
    return 1


def run(command):
    """The ratios of one run by what was measured and its size, in order; None where the program failed."""
    rows, in_table = {}, False
    with subprocess.Popen(command, stdout=subprocess.PIPE, text=True) as program:
        for line in program.stdout:
            print(line, end="", flush=True)
            words = line.split()
            if in_table and len(words) >= len(HEAD):
                rows[" ".join(words[:-5]), words[-5]] = float(words[-1])
            in_table = words == HEAD or in_table and bool(words)
    return rows if program.returncode == 0 else None


def main(words):
    if len(words) < 2 or not words[0].isdigit() or int(words[0]) == 0:
        return fail("RUNS has to be a count of runs, 1 or more")
    runs = []
    for number in range(int(words[0])):
        if number > 0:
            print()
        rows = run(words[1:])
        if not rows:
            return fail("a run failed")
        runs.append(rows)
    if any(list(rows) != list(runs[0]) for rows in runs):
        return fail("the runs have not the same rows")
    if len(runs) > 1:
        print(f"\nratios of {len(runs)} runs\n")
        print(f"{'what':<30} {'size':>8} {'median':>8} {'lowest':>8} {'highest':>8}")
        for row in runs[0]:
            ratios = [rows[row] for rows in runs]
            print(f"{row[0]:<30} {row[1]:>8} {statistics.median(ratios):>8.2f} {min(ratios):>8.2f} {max(ratios):>8.2f}")
    return 0


if __name__ == "__main__":
    sys.exit(main(sys.argv[1:]))
