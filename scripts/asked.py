"""How the scripts of this folder are asked, and how they end: a wrong word or a missing file is told in a line, and so is a closed pipe
none of theirs."""

import os
import sys
from pathlib import Path

HERE = Path(__file__).resolve().parent.parent


def stop(script, why):
    """Ends with status 2 and a line on standard error."""
    print(f"{script}: {why}", file=sys.stderr)
    sys.exit(2)


def tries(script, doc, cases, *programs):
    """Returns what stands behind the script's name: how many cases, by default so many, the seed, and programs, each named by its path in
    the repository where none is given."""
    words = sys.argv[1:]
    if any(word in ("-h", "--help") for word in words):
        print(doc)
        sys.exit(0)
    if len(words) > 2 + len(programs):
        stop(script, f"no word is expected behind {words[1 + len(programs)]}: {script} --help says more")
    if words and not words[0].isdecimal():
        stop(script, f"{words[0]} is no number of cases: {script} --help says more")
    paths = [words[2 + at] if len(words) > 2 + at else str(HERE / program) for at, program in enumerate(programs)]
    for path in paths:
        if not Path(path).is_file():
            stop(script, f"there is no program at {path}: ./bus629 --prove and ./bus629-view --prove make them")
    return int(words[0]) if words else cases, words[1] if len(words) > 1 else "1", *paths


def to_its_end(main):
    """Runs the script, and ends quietly where whoever reads what it prints has gone, or it is interrupted."""
    try:
        status = main()
        sys.stdout.flush()
        sys.exit(status)
    except BrokenPipeError:
        os.dup2(os.open(os.devnull, os.O_WRONLY), sys.stdout.fileno())
        sys.exit(1)
    except KeyboardInterrupt:
        sys.exit(130)
