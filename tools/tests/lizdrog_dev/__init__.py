"""The package lizdrog_dev of dev/: scripts here find it beside themselves. A link would do, but `rt ci` takes none."""
import pathlib

__path__ = [str(pathlib.Path(__file__).resolve().parents[3] / "dev" / "lizdrog_dev")]
