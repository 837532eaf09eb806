"""What scripts do alike: help, words that they do not take, what has to be built or installed first, and output that cannot be
written. What goes wrong is said in a line with the script's name before it, and the exit status is then 2."""
import os
import shutil
import subprocess
import sys
from pathlib import Path

ROOT = Path(__file__).resolve().parent.parent
# Who has the programs that are not to be had by their own name.
FROM = {"rt": "the Rattle kit", "rustc": "Rust", "cargo": "Rust"}


class Stop(Exception):
    """Why a script cannot go on, and what to do."""


def name():
    """The script's, as one calls it at the root."""
    path = Path(sys.argv[0]).resolve()
    return str(path.relative_to(ROOT)) if path.is_relative_to(ROOT) else sys.argv[0]


def words(text):
    """The words behind the script's name. Where one of them asks for help, the text is printed and nothing else is done."""
    given = sys.argv[1:]
    if {"-h", "--help"} & set(given):
        print(text.strip())
        raise SystemExit(0)
    return given


def wrong_words(text):
    """Ends the script with the usage line of its text."""
    print(next(line for line in text.splitlines() if line.startswith("usage: ")), file=sys.stderr)
    raise SystemExit(2)


def must_be_there(*needed):
    """Ends the script where one of the files is missing, each handed over with the command that makes it."""
    for path, maker in needed:
        if not path.exists():
            raise Stop(f"there is no {path.relative_to(ROOT)}: run {maker} first")


def must_be_installed(*programs):
    for program in programs:
        if shutil.which(program) is None:
            raise Stop(f"there is no {program} on PATH: install {FROM.get(program, 'it')} first")


def failed(error):
    """What to say of a program that was run and did not end as it should."""
    said = (error.stderr or b"").strip()
    last = said.splitlines()[-1] if said else b""
    text = last.decode(errors="replace") if isinstance(last, bytes) else last
    return f"{' '.join(map(str, error.cmd))} ended with status {error.returncode}{': ' if text else ''}{text}"


def outcome(main):
    """The status that main answers, and why it could not go on, if so."""
    try:
        return main(), None
    except SystemExit as ended:
        return ended.code, None
    except Stop as stop:
        return 2, str(stop)
    except subprocess.CalledProcessError as error:
        return 2, failed(error)
    except OSError as error:
        return 2, f"{error.filename or 'standard output'}: {error.strerror or error}"
    except KeyboardInterrupt:
        return 2, "interrupted"


def unwritten():
    """Why what was printed could not be written, if so. It is not tried again when the run ends."""
    if sys.stdout is None:
        return "standard output is closed"
    try:
        sys.stdout.flush()
    except OSError as error:
        os.dup2(os.open(os.devnull, os.O_WRONLY), sys.stdout.fileno())
        return f"standard output: {error.strerror or error}"
    return None


def end(main):
    """Runs main and ends the script with the status that it answers, all that it printed written, or with a word why not."""
    status, why = outcome(main)
    lost = unwritten()
    # With status 2 main has said itself what went wrong.
    if status != 2:
        why = lost
    if why:
        print(f"{name()}: {why}", file=sys.stderr)
    sys.exit(2 if why else status)
