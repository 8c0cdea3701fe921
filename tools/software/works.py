"""What each piece of software is given to do, at two sizes, and what the host's own makes of the same. """

import subprocess
from collections.abc import Callable, Mapping
from dataclasses import dataclass
from pathlib import Path

from jobs import Job, check
from recipes import HERE, Program

Files = Mapping[str, bytes]


@dataclass(frozen=True)
class Work:
    """A job of a program: the words that the program is launched with, the files that the job is given, the
    commands of the host that write the same on their standard output, and what else has to hold of the
    files that it left."""

    job: Job
    files: Files
    host: tuple[str, ...]
    check_files: Callable[[Files, Path], None] = lambda left, folder: None


def first_bytes(text: bytes, count: int) -> bytes:
    """The first lines of a text, about so many bytes."""
    return text[: text.rindex(b"\n", 0, count) + 1]


def lua(program: Program, is_small: bool) -> Work:
    """A script that writes five lines in each round."""
    rounds = 10 if is_small else 400
    script = (HERE / "lua" / "work.lua").read_bytes()
    job = Job(f"--file work.lua 0:lua.elf,work.lua,{rounds},work.lua")
    return Work(job, {"work.lua": script}, (f"lua5.4 work.lua {rounds} work.lua",))


def bzip2(program: Program, is_small: bool) -> Work:
    """A file is compressed to another one, from there written on the console, and then goes through a pipe."""
    text = (program.source / "bzip2.c").read_bytes()
    text = first_bytes(text, 6_000 if is_small else len(text))
    words = "bzip2,-4k,text,then,bzip2,-dc,text.bz2,then,bzip2,-4c,text,into,bzip2,-dc"

    def check_files(left: Files, folder: Path) -> None:
        host = subprocess.run(["bzip2", "-4c"], input=text, stdout=subprocess.PIPE, check=True).stdout
        check(left.get("text.bz2") == host, "the compressed file is not the host's")

    return Work(Job(f"--file text 0:bzip2.elf,{words}"), {"text": text}, ("cat text text",), check_files)


def sqlite(program: Program, is_small: bool) -> Work:
    """Statements that make a database, and a second process that asks it."""
    rows = b"60" if is_small else b"4000"
    files = {name: (HERE / "sqlite" / name).read_bytes().replace(b"@ROWS@", rows)
             for name in ("statements.sql", "questions.sql")}
    words = "sqlite,base.db,statements.sql,then,sqlite,base.db,questions.sql"
    job = Job(f"--file statements.sql --file questions.sql 0:sqlite.elf,{words}")
    asked = [f"sqlite3 own.db < {name}" for name in files]

    def check_files(left: Files, folder: Path) -> None:
        (folder / "left.db").write_bytes(left.get("base.db", b""))
        there, own = (written(f"sqlite3 {name} < questions.sql", folder) for name in ("left.db", "own.db"))
        check(there and there == own, "the host finds other answers in the database")

    return Work(job, files, tuple(asked), check_files)


def dash(program: Program, is_small: bool) -> Work:
    """A script of builtins, whose pipes and children are processes of their own."""
    rounds = 2 if is_small else 60
    script = (HERE / "dash" / "work.sh").read_bytes()
    job = Job(f"--file work.sh --file dev/null 0:dash.elf,work.sh,{rounds}")
    return Work(job, {"work.sh": script, "dev/null": b""}, (f"dash work.sh {rounds}",))


def written(command: str, folder: Path) -> bytes:
    """What a command of the host writes."""
    return subprocess.run(command, shell=True, cwd=folder, check=True, stdout=subprocess.PIPE).stdout


WORKS = {"lua": lua, "bzip2": bzip2, "sqlite": sqlite, "dash": dash}


def host_console(work: Work, folder: Path) -> bytes:
    """What the host's own programs write."""
    for name, content in work.files.items():
        (folder / name).parent.mkdir(exist_ok=True)
        (folder / name).write_bytes(content)
    return b"".join(written(command, folder) for command in work.host)
