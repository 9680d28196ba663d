"""Where the parts of the repository, or of an installed copy, are."""
import os
import pathlib
import zlib

TOP = pathlib.Path(__file__).resolve().parent.parent.parent
TOOLS, DEV, BENCH, DOCS, EXAMPLES = TOP / "tools", TOP / "dev", TOP / "bench", TOP / "docs", TOP / "examples"
CRATES = TOP / "crates"
# The program that the gate proved and built, and the one that was built without proof.
PROVED = CRATES / "timing_shell" / "out" / "timing_shell"
QUICK = TOP / "out" / "quick_build" / "timing_shell"


def work_folder() -> pathlib.Path:
    """A folder of this clone outside of it, for libraries and copies of sources: `rt ci` refuses sources at other
    places of a clone."""
    cache = os.environ.get("XDG_CACHE_HOME") or os.path.expanduser("~/.cache")
    return pathlib.Path(cache) / "lizdrog" / f"{TOP.name}-{zlib.crc32(str(TOP).encode()):08x}"


WORK = work_folder()


def is_program(file: pathlib.Path) -> bool:
    """Whether a file can be run."""
    return file.is_file() and os.access(file, os.X_OK)


def find_program() -> pathlib.Path | None:
    """The proved program, or else the one without proof, or none."""
    return next(filter(is_program, (PROVED, QUICK)), None)
