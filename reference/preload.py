"""Libraries in C that are loaded before the program, and take its calls."""

import subprocess
from pathlib import Path


def built_library(name: str, folder: Path) -> Path:
    """The library of the C file of this name beside this one, built in a folder."""
    library = folder / f"{name}.so"
    source = Path(__file__).with_name(f"{name}.c")
    subprocess.run(["cc", "-O2", "-shared", "-fPIC", "-o", library, source], check=True)
    return library
