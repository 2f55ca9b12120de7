"""The tag of a wheel: any platform, or this one where the wheel carries the program or the library. All else is in pyproject.toml."""
import pathlib

import setuptools
from wheel.bdist_wheel import bdist_wheel

PACKAGE = pathlib.Path(__file__).resolve().parent / "domethyme"
CARRIED = (PACKAGE / "routecli", PACKAGE / "libdomethyme.so.1")


class Wheel(bdist_wheel):
    """A wheel for any Python 3."""

    def finalize_options(self) -> None:
        super().finalize_options()
        self.root_is_pure = not any(each.exists() for each in CARRIED)

    def get_tag(self) -> tuple[str, str, str]:
        _, _, platform = super().get_tag()
        return "py3", "none", platform


setuptools.setup(cmdclass={"bdist_wheel": Wheel})
