"""Solves bounded integer programs with the program `ug`, and returns its exact answers.

    import ug
    answer = ug.solve("plan.mps", solvers=8)
    print(answer.status, answer.value, answer.columns)

Standard library only, Python 3.9 or later. What is proved is proved of the program that is run; this module starts it and
reads its lines (docs/usage.md, "What it prints").
"""
from __future__ import annotations

import contextlib
import os
import re
import shutil
import subprocess
import tempfile
from dataclasses import dataclass, field
from fractions import Fraction
from pathlib import Path
from typing import Dict, Iterator, List, Mapping, Optional, Sequence, Tuple, Union

__all__ = ["Answer", "Error", "Failed", "Refused", "TimedOut", "find_program", "restart", "solve"]

Model = Union[str, bytes, "os.PathLike[str]"]
Folder = Union[str, "os.PathLike[str]"]
Value = Union[int, Fraction]

# Seconds that a child has to end after SIGTERM, before it is killed.
GRACE = 5.0


@dataclass(frozen=True)
class Answer:
    """The answer of a run.

    status    'optimal'; 'within': no point is better by more than the gap; 'infeasible'; or 'limited': the limit of
              reports was reached, and the value is the best so far
    value     the value of the objective, exactly; None if there is no point
    columns   the columns that are not 0, in the order of the file; none of them for 'infeasible' and 'limited'
    messages  the lines of standard error
    nodes     the open nodes that are left, for 'limited'
    missed    saves that failed on the disk, with a checkpoint
    unsaved   saves that ran out of memory, with a checkpoint
    """

    status: str
    value: Optional[Value]
    columns: Dict[str, int] = field(default_factory=dict)
    messages: Tuple[str, ...] = ()
    nodes: int = 0
    missed: int = 0
    unsaved: int = 0


class Error(Exception):
    """A run without an answer.

    message   what `ug` says on standard error, or what this module says
    status    the exit status; -N after signal N; None if the run did not end by itself, or did not begin
    line      the line of the MPS file that was refused, from 1; None otherwise
    output    the first line of standard output
    messages  the lines of standard error
    """

    def __init__(self, message: str, status: Optional[int] = None, line: Optional[int] = None, output: str = "",
                 messages: Sequence[str] = ()) -> None:
        super().__init__(message)
        self.message = message
        self.status = status
        self.line = line
        self.output = output
        self.messages = tuple(messages)


class Refused(Error):
    """The MPS file was refused (status 3). docs/mps.md lists the kinds; `word` is the word at fault, or ''."""

    kind: str = ""
    word: str = ""


class Failed(Error):
    """The run failed, or could not begin."""


class TimedOut(Failed):
    """The run was stopped after the time that `timeout` allows."""


def solve(path_or_text: Model, solvers: int = 4, mode: Optional[str] = None, base: Optional[str] = None,
          gap: Optional[int] = None, box: Optional[int] = None, checkpoint: Optional[Folder] = None,
          program: Optional[Folder] = None, timeout: Optional[float] = None, *, racing: bool = False,
          low: Optional[int] = None, high: Optional[int] = None, every: Optional[int] = None,
          limit: Optional[int] = None, sockets: Optional[Folder] = None) -> Answer:
    """Solves a model and returns the answer.

    The model is a path, or the text of an MPS file: bytes, or a str with a line feed. Each option that is not named here is
    the option of `ug` with that name (docs/usage.md). `program` is the program to run, by default as `find_program` returns
    it. After `timeout` seconds the run is stopped; with a checkpoint `restart` resumes it.

    Raises Refused if the file is refused, TimedOut after `timeout`, and Failed for every other end without an answer. The
    program is stopped and no file is left, except those of the checkpoint, also after KeyboardInterrupt.
    """
    options = dict(solvers=solvers, racing=racing, base=base, low=low, high=high, checkpoint=checkpoint, every=every,
                   limit=limit, gap=gap, box=box, mode=mode, sockets=sockets)
    return _solve("solve", path_or_text, options, program, timeout)


def restart(path_or_text: Model, checkpoint: Folder, solvers: int = 4, mode: Optional[str] = None,
            base: Optional[str] = None, gap: Optional[int] = None, box: Optional[int] = None,
            program: Optional[Folder] = None, timeout: Optional[float] = None, *, racing: bool = False,
            low: Optional[int] = None, high: Optional[int] = None, every: Optional[int] = None,
            limit: Optional[int] = None, sockets: Optional[Folder] = None) -> Answer:
    """Resumes from the checkpoint that an earlier run of the same model left. Otherwise as `solve`."""
    options = dict(solvers=solvers, racing=racing, base=base, low=low, high=high, checkpoint=checkpoint, every=every,
                   limit=limit, gap=gap, box=box, mode=mode, sockets=sockets)
    return _solve("restart", path_or_text, options, program, timeout)


def find_program(program: Optional[Folder] = None) -> str:
    """Returns the path of the program: the argument; else the variable UG; else `ug` of the checkout, the release or the
    installation that this file is in; else `ug` on the PATH. Raises Failed if there is none."""
    for origin, given in (("the argument program", program), ("the variable UG", os.environ.get("UG"))):
        if given:
            if not _is_program(Path(given)):
                raise Failed("%s: not a program (from %s)" % (os.fspath(given), origin))
            return os.path.abspath(given)
    top = Path(__file__).resolve().parent.parent
    beside = [top / "ug", top / "bin" / "ug", top.parent / "bin" / "ug"]
    found = next((str(path) for path in beside if _is_program(path)), None) or shutil.which("ug")
    if found is None:
        raise Failed("the program ug is not found: give its path as program=.., set UG, or put it on the PATH")
    return found


def _is_program(path: Path) -> bool:
    return path.is_file() and os.access(path, os.X_OK)


def _solve(command: str, model: Model, options: Mapping[str, object], program: Optional[Folder],
           timeout: Optional[float]) -> Answer:
    """Runs the command and returns its answer, or raises an error."""
    text, name = _model(model)
    with _sockets(options) as place:
        words = [find_program(program), command, name] + _words({**options, "sockets": place})
        status, out, err = _run(words, text, timeout)
    lines = [line for line in _decoded(out).split("\n") if line]
    messages = tuple(_decoded(err).splitlines())
    if status not in (0, 8):
        raise _error(status, lines[0] if lines else "", messages)
    missed, unsaved = _counts(lines, model) if options["checkpoint"] is not None else (0, 0)
    return _answer(status, lines, messages, missed, unsaved)


def _model(model: Model) -> Tuple[Optional[bytes], str]:
    """The text that the program reads from a pipe, if there is one, and the name of the file that it reads."""
    if isinstance(model, bytes):
        return model, "/dev/stdin"
    if isinstance(model, str) and "\n" in model:
        return model.encode("utf-8", "surrogateescape"), "/dev/stdin"
    path = os.fspath(model)
    return None, path if not path.startswith("-") else os.path.join(".", path)


def _words(options: Mapping[str, object]) -> List[str]:
    """The options as words, without those that are None or False."""
    words = []
    for name, value in options.items():
        if isinstance(value, float):
            raise TypeError("%s is a float; ug takes integers" % name)
        if value is True:
            words.append("--" + name)
        elif value is not None and value is not False:
            words.append("--%s=%s" % (name, os.fspath(value) if isinstance(value, os.PathLike) else value))
    return words


@contextlib.contextmanager
def _sockets(options: Mapping[str, object]) -> Iterator[Optional[object]]:
    """The folder of the sockets: that of the options, or with processes a fresh one, which is removed in every case."""
    if options["mode"] != "processes" or options["sockets"] is not None:
        yield options["sockets"]
        return
    runtime = os.environ.get("XDG_RUNTIME_DIR", "")
    place = tempfile.mkdtemp(prefix="ug-", dir=runtime if os.path.isdir(runtime) else None)
    try:
        yield place
    finally:
        shutil.rmtree(place, ignore_errors=True)


def _run(words: Sequence[str], text: Optional[bytes], timeout: Optional[float]) -> Tuple[int, bytes, bytes]:
    """Runs these words with the text as standard input. Returns the status, standard output and standard error."""
    source = subprocess.DEVNULL if text is None else subprocess.PIPE
    try:
        child = subprocess.Popen(words, stdin=source, stdout=subprocess.PIPE, stderr=subprocess.PIPE)
    except (OSError, ValueError) as why:
        raise Failed("%s: %s" % (words[0], getattr(why, "strerror", None) or why)) from None
    try:
        out, err = child.communicate(text, timeout)
    except subprocess.TimeoutExpired:
        _stop(child)
        raise TimedOut("no answer within %s seconds" % timeout) from None
    except BaseException:
        _stop(child)
        raise
    return child.returncode, out, err


def _stop(child: "subprocess.Popen[bytes]") -> None:
    """Ends the child and waits for it."""
    try:
        child.terminate()
        child.wait(GRACE)
    except subprocess.TimeoutExpired:
        pass
    finally:
        child.kill()
        child.wait()
        for pipe in (child.stdin, child.stdout, child.stderr):
            if pipe is not None:
                with contextlib.suppress(OSError):
                    pipe.close()


def _decoded(printed: bytes) -> str:
    """The text of printed bytes. Names that are not UTF-8 keep their bytes, as file names of Python do."""
    return printed.decode("utf-8", "surrogateescape")


def _value(word: str) -> Optional[Value]:
    """The number, exactly; None for `none`."""
    if word == "none":
        return None
    return Fraction(word) if "." in word else int(word)


def _answer(status: int, lines: Sequence[str], messages: Tuple[str, ...], missed: int, unsaved: int) -> Answer:
    """The answer that these lines state. Raises Failed if they are not lines of `ug`."""
    first = re.fullmatch(
        r"(?:(optimal) |(within) \d+ )(-?\d+(?:\.\d+)?)|(infeasible)|(open) (none|-?\d+(?:\.\d+)?) (\d+)",
        lines[0] if lines else "")
    if first is None or (status == 8) != (first[5] == "open"):
        raise Failed("these are not lines of ug: %r" % (lines[0] if lines else ""), status, None,
                     lines[0] if lines else "", messages)
    columns: Dict[str, int] = {}
    for line in lines[1:]:
        name, _, number = line.rpartition(" ")
        columns[name] = int(number)
    name = first[1] or first[2] or first[4] or "limited"
    value = first[3] or first[6]
    return Answer(name, None if value is None else _value(value), columns, messages, int(first[7] or 0), missed, unsaved)


def _counts(lines: List[str], model: Model) -> Tuple[int, int]:
    """Takes the lines that count saves off the end, and returns the counts of `missed` and `unsaved`."""
    counts = {"missed": 0, "unsaved": 0}
    for word in ("unsaved", "missed"):
        lines_of_it = [line for line in lines[1:] if line.startswith(word + " ")]
        if lines_of_it and lines[-1] is lines_of_it[-1] and (len(lines_of_it) == 2 or not _names(model, word)):
            counts[word] = int(lines.pop().split(" ")[1])
    return counts["missed"], counts["unsaved"]


def _names(model: Model, word: str) -> bool:
    """Has the model a line that begins with this word, as those of a column of this name do?"""
    text, path = _model(model)
    if text is None:
        try:
            text = Path(path).read_bytes() if os.path.isfile(path) else b""
        except OSError:
            text = b""
    return re.search(rb"^[ \t]+%s[ \t]" % word.encode(), text, re.MULTILINE) is not None


def _error(status: int, output: str, messages: Tuple[str, ...]) -> Error:
    """The error of a run that ended so."""
    said = [line[len("ug: error: "):] for line in messages if line.startswith("ug: error: ")]
    helps = [line[len("ug: help: "):] for line in messages if line.startswith("ug: help: ")]
    usage = [line for line in messages if line.startswith("usage: ")]
    if status < 0:
        said = said or ["ug was killed by signal %d" % -status]
    message = "; ".join(said + helps) or (usage or [output or "ug ended with status %d" % status])[0]
    refused = re.fullmatch(r"refused (\d+) (\w+)(?: (.*))?", output)
    if status != 3 or refused is None:
        return Failed(message, status, None, output, messages)
    error = Refused(message, status, int(refused[1]), output, messages)
    error.kind, error.word = refused[2], refused[3] or ""
    return error
