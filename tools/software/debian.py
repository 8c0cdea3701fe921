"""Sources of Debian's packages. apt-get fetches them, checks them and applies Debian's changes, by a list of
its own in a folder outside of the repository, so that nothing of the system is changed and nobody has to be
root. """

import os
import shutil
import subprocess
import tempfile
from pathlib import Path

LIST = "deb-src http://deb.debian.org/debian bookworm main\n"
HOME_OF_CACHES = Path(os.environ.get("XDG_CACHE_HOME") or Path.home() / ".cache")


def cache() -> Path:
    """The folder of what was fetched and built."""
    folder = HOME_OF_CACHES / "dmtcp-software"
    folder.mkdir(parents=True, exist_ok=True)
    return folder


def apt_get(folder: Path, *words: str, where: Path) -> None:
    """Runs apt-get over the list in a folder."""
    options = {
        "Dir::Etc::SourceList": folder / "sources.list",
        "Dir::Etc::SourceParts": "-",
        "Dir::State::Lists": folder / "lists",
        "Dir::Cache": folder / "archives",
        "APT::Sandbox::User": "root",
    }
    given = [word for name, value in options.items() for word in ("-o", f"{name}={value}")]
    subprocess.run(["apt-get", "-q", *given, *words], cwd=where, check=True, stdout=subprocess.DEVNULL)


def source_of(package: str) -> Path:
    """The folder of a package's source, which is fetched unless it is there."""
    folder = cache()
    there = folder / "sources" / package
    if there.exists():
        return there
    there.parent.mkdir(exist_ok=True)
    if not (folder / "lists").exists():
        for name in ("lists", "archives"):
            (folder / name / "partial").mkdir(parents=True)
        (folder / "sources.list").write_text(LIST)
        apt_get(folder, "update", where=folder)
    with tempfile.TemporaryDirectory(dir=folder) as name:
        apt_get(folder, "source", package, where=Path(name))
        (unpacked,) = (path for path in Path(name).iterdir() if path.is_dir())
        shutil.move(unpacked, there)
    return there


def version_of(source: Path) -> str:
    """Debian's version of a source."""
    told = subprocess.run(["dpkg-parsechangelog", "-l", source / "debian" / "changelog", "-S", "Version"],
                          check=True, capture_output=True, text=True)
    return told.stdout.strip()
