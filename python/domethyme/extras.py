"""What of this package needs other packages, and how a call says that one is missing."""
import importlib
import importlib.util
import sys
from typing import Any

# By the name of a package the extra of this one that installs it.
EXTRAS = {
    "numpy": "arrays", "pandas": "frames", "scipy": "reach", "shapely": "reach", "tqdm": "maps",
    "geopandas": "geo",
}


def need(name: str) -> None:
    """Raises ImportError, with what to install, where a package isn't there."""
    if sys.modules.get(name) is None and (name in sys.modules or importlib.util.find_spec(name) is None):
        remedy = f"pip install 'domethyme[{EXTRAS[name]}]', or Debian's python3-{name}"
        raise ImportError(f"this call needs {name}, which is missing: {remedy}", name=name)


def load(name: str) -> Any:
    """The package. Raises ImportError as `need` does."""
    need(name)
    return importlib.import_module(name)
