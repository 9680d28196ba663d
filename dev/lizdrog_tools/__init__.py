"""The package lizdrog_tools of tools/: scripts here find it beside themselves (`rt ci` takes no link)."""
import pathlib

__path__ = [str(pathlib.Path(__file__).resolve().parents[2] / "tools" / "lizdrog_tools")]
