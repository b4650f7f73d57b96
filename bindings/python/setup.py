"""Builds a wheel that bundles the library for C: the file that ZIMGASOL_LIBRARY names, or else
`out/libzimgasol.so` of the source, which `make lib` builds. The wheel is for Linux on x86-64, and
for any Python 3.
"""

import os
import shutil
from pathlib import Path

from setuptools import Distribution, setup
from setuptools.command.build_py import build_py
from wheel.bdist_wheel import bdist_wheel

HERE = Path(__file__).resolve().parent
LIBRARY = Path(os.environ.get("ZIMGASOL_LIBRARY") or HERE.parent.parent / "out/libzimgasol.so")


class BuildWithLibrary(build_py):
    def run(self):
        super().run()
        if getattr(self, "editable_mode", False):
            return
        if not LIBRARY.exists():
            raise SystemExit(f"{LIBRARY} isn't there: make lib, or set ZIMGASOL_LIBRARY")
        folder = Path(self.build_lib) / "zimgasol/lib"
        folder.mkdir(parents=True, exist_ok=True)
        shutil.copyfile(LIBRARY, folder / "libzimgasol.so")


class LinuxWheel(bdist_wheel):
    def finalize_options(self):
        super().finalize_options()
        self.root_is_pure = False

    def get_tag(self):
        return "py3", "none", "linux_x86_64"


class WithLibrary(Distribution):
    def has_ext_modules(self):
        return True


setup(cmdclass={"build_py": BuildWithLibrary, "bdist_wheel": LinuxWheel}, distclass=WithLibrary)
