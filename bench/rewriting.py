"""Measures the families of rewriting with the program and, where it is installed, with Maude.

The start-up is taken off: what is told of a run is the median of five runs less that of five runs that are asked
nothing. Maude prints by recursion, so it alone runs without a limit on the stack. The peak memory is that of a whole
run.
"""
import os
import resource
from dataclasses import dataclass

from families import FAMILIES, Family, as_lotos, as_maude, questions

RUNS = 5


@dataclass(frozen=True)
class Measured:
    """The status of a run, the seconds of the processor, and the peak memory in MiB."""

    status: int
    seconds: float
    memory: float


def written(folder: str, name: str, content: str) -> str:
    """The path of a file with this content."""
    path = os.path.join(folder, name)
    with open(path, "w", encoding="utf-8") as file:
        file.write(content)
    return path


def run_once(words: list[str], folder: str, source: str, any_stack: bool) -> Measured:
    """One run, whose output is thrown away."""
    child = os.fork()
    if child == 0:
        os.chdir(folder)
        os.dup2(os.open(source, os.O_RDONLY), 0)
        os.dup2(os.open(os.devnull, os.O_RDWR), 1)
        if any_stack:
            hard = resource.getrlimit(resource.RLIMIT_STACK)[1]
            resource.setrlimit(resource.RLIMIT_STACK, (hard, hard))
        os.execv(words[0], words)
    _, status, usage = os.wait4(child, 0)
    seconds = usage.ru_utime + usage.ru_stime
    return Measured(os.waitstatus_to_exitcode(status), seconds, usage.ru_maxrss / 1024)


def median(words: list[str], folder: str, source: str, any_stack: bool) -> Measured:
    """The run with the median time."""
    runs = [run_once(words, folder, source, any_stack) for _ in range(RUNS)]
    return sorted(runs, key=lambda run: run.seconds)[RUNS // 2]


def net(words: list[str], folder: str, asked: str, nothing: str, any_stack: bool = False) -> Measured:
    """A run that is asked these questions, less one that is asked nothing."""
    empty = median(words, folder, written(folder, "empty", nothing), any_stack)
    whole = median(words, folder, written(folder, "input", asked), any_stack)
    return Measured(whole.status, max(0.0, whole.seconds - empty.seconds), whole.memory)


def row(family: Family, size: int, program: str, maude: str | None, folder: str) -> None:
    """Prints the line of a family for a size."""
    written(folder, "s.lotos", as_lotos(family.algebra))
    asked, asked_of_maude = questions(family, size)
    own = net([program, "run", "s.lotos"], folder, asked, "")
    line = f"rewriting: {family.name:<22} {size:>8} {own.status:>6} {own.seconds:>9.3f} {own.memory:>7.1f}"
    if maude:
        module = as_maude(family.algebra)
        other = net([maude, "-no-banner"], folder, module + asked_of_maude, module, any_stack=True)
        ratio = f"{own.seconds / other.seconds:>7.2f}" if other.seconds else ""
        line += f" {other.seconds:>9.3f} {other.memory:>7.1f} {ratio}"
    print(line, flush=True)


def report(program: str, maude: str | None, folder: str, only: str) -> None:
    """Prints a line for each family and size whose name has this text in it."""
    chosen = [family for family in FAMILIES if only in f"rewriting: {family.name}"]
    if not chosen:
        return
    print(f"\n{'input':<33} {'size':>8} {'status':>6} {'seconds':>9} {'MiB':>7} {'by Maude':>9} {'MiB':>7} {'ratio':>7}")
    for family in chosen:
        for size in family.sizes:
            row(family, size, program, maude, folder)
