"""Builds the wheel: the version is that of the file VERSION, and the shared library goes along. `make -C c wheel` builds both."""

import os
import re
import shutil
from pathlib import Path

from setuptools import Distribution, setup
from setuptools.command.build_py import build_py
from wheel.bdist_wheel import bdist_wheel

REPOSITORY = Path(__file__).resolve().parent.parent
INTERFACE = re.search(r"^#define TBSON_VERSION (\d+)$", (REPOSITORY / "c/tbson.h").read_text(encoding="ascii"), re.MULTILINE).group(1)
NAME = f"libtbson.so.{INTERFACE}"


class BuildWithLibrary(build_py):
    """Puts the shared library and the version beside the modules."""

    def run(self):
        super().run()
        package = Path(self.build_lib) / "tbson"
        shutil.copyfile(os.environ.get("TBSON_LIBRARY") or REPOSITORY / "c/out" / NAME, package / NAME)
        shutil.copyfile(REPOSITORY / "VERSION", package / "VERSION")


class WithLibrary(Distribution):
    """Holds more than modules, so it is for one platform."""

    def has_ext_modules(self):
        return True


class WheelOfPlatform(bdist_wheel):
    """The wheel is for every CPython 3, on Linux on x86-64."""

    def get_tag(self):
        return "py3", "none", "linux_x86_64"


setup(
    version=(REPOSITORY / "VERSION").read_text(encoding="ascii").strip(),
    distclass=WithLibrary,
    cmdclass={"build_py": BuildWithLibrary, "bdist_wheel": WheelOfPlatform},
)
