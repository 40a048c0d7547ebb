"""Puts the engine's library into the wheel, and names the wheel after what the library needs.

The library is called by `ctypes`, so one wheel serves every Python. It is that of `embed/build`, or the one that
FLASHFILL_LIBRARY names. Two builds of the same sources make the same bytes: all files have one date.
"""
import os
import pathlib
import shutil
import tempfile

from setuptools import setup
from setuptools.command.build_py import build_py
from setuptools.dist import Distribution

try:
    from setuptools.command.bdist_wheel import bdist_wheel
except ImportError:  # setuptools before 70
    from wheel.bdist_wheel import bdist_wheel

HERE = pathlib.Path(__file__).resolve().parent
LIBRARY = pathlib.Path(os.environ.get("FLASHFILL_LIBRARY") or HERE.parent / "out" / "libflashfill.so")
LICENSE = HERE.parent.parent / "LICENSE"
os.environ.setdefault("SOURCE_DATE_EPOCH", "315532800")  # 1980, the first year that a wheel can tell
os.umask(0o022)


class WithLibrary(build_py):
    def run(self):
        if not LIBRARY.is_file():
            raise SystemExit(f"{LIBRARY} is not there: embed/build makes it, or FLASHFILL_LIBRARY names another one")
        super().run()
        if not getattr(self, "editable_mode", False):
            package = pathlib.Path(self.build_lib) / "flashfill"
            shutil.copyfile(LIBRARY, package / "libflashfill.so")
            shutil.copyfile(LICENSE, package / "LICENSE")


class ForThisPlatform(Distribution):
    def has_ext_modules(self):
        return True


class AnyPython(bdist_wheel):
    def get_tag(self):
        return "py3", "none", "manylinux2014_x86_64"


with tempfile.TemporaryDirectory() as room:  # so that a build leaves nothing in the tree, and finds nothing there
    setup(
        distclass=ForThisPlatform,
        cmdclass={"build_py": WithLibrary, "bdist_wheel": AnyPython},
        options={"build": {"build_base": room}, "egg_info": {"egg_base": room}},
    )
