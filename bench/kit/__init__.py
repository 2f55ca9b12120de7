"""The kit of the tests (tests/kit), for the scripts of this folder, which find the packages of python/ by it."""
import pathlib
import sys

ROOT = pathlib.Path(__file__).resolve().parents[2]
__path__ = [str(ROOT / "tests/kit")]
sys.path.insert(0, str(ROOT / "python"))
