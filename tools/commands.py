"""What the tools of this folder do alike: they read their words, run programs, and end in one line where something that
they need isn't there, a program runs too long, or they are interrupted."""
import argparse
import os
import shutil
import signal
import subprocess
import sys

ROOT = os.path.dirname(os.path.dirname(os.path.realpath(__file__)))
SECONDS = 600


class Failed(Exception):
    """What is told where a tool can't go on, in one line."""


class Words(argparse.ArgumentParser):
    """The words of a tool: `--help` prints the text at the head of its file, and faulty words are told in a line."""

    def __init__(self, text):
        super().__init__(description=text, formatter_class=argparse.RawDescriptionHelpFormatter, allow_abbrev=False)

    def error(self, message):
        self.exit(2, f"{self.prog}: {message}; --help says more\n")

    def add_program(self):
        self.add_argument("--program", default=[f"{ROOT}/dpwasm"], metavar="PATH", type=program_at)


def program_at(text):
    """The words of a program, of which the first one is there."""
    words = text.split()
    found = shutil.which(words[0]) if words else None
    if found is None:
        raise argparse.ArgumentTypeError(f"no such program: {text}")
    return [os.path.abspath(found), *words[1:]]


def completed(words, seconds=SECONDS, **how):
    """A program that has ended, with what it wrote."""
    how = {"capture_output": True, "text": True, **how}
    try:
        return subprocess.run(words, timeout=seconds, check=False, **how)
    except FileNotFoundError as error:
        raise Failed(f"{error.filename} isn't there") from None
    except subprocess.TimeoutExpired:
        raise Failed(f"{words[0]} ran for more than {seconds} seconds") from None


def output_of(words, seconds=SECONDS, **how):
    """What a program writes to its output, where it ends well."""
    ran = completed(words, seconds, **how)
    if ran.returncode:
        raise Failed((ran.stderr or ran.stdout).rstrip() or f"{words[0]} failed")
    return ran.stdout


def ended(main):
    """The status of a tool: what `main` answers, or 1 and a line, 130 where it is interrupted."""
    signal.signal(signal.SIGPIPE, signal.SIG_DFL)
    name = os.path.basename(sys.argv[0])
    try:
        return main()
    except Failed as error:
        print(f"{name}: {error}", file=sys.stderr)
    except OSError as error:
        print(f"{name}: {error.filename or 'a file'}: {error.strerror}", file=sys.stderr)
    except UnicodeDecodeError:
        print(f"{name}: a file that has to be UTF-8 isn't", file=sys.stderr)
    except subprocess.TimeoutExpired as error:
        words = error.cmd if isinstance(error.cmd, str) else error.cmd[0]
        print(f"{name}: {words} ran for more than {error.timeout:.0f} seconds", file=sys.stderr)
    except KeyboardInterrupt:
        print(f"{name}: interrupted", file=sys.stderr)
        return 130
    return 1
