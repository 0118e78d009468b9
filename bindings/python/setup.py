"""Builds the wheel. If FLATC_LIB_DIR names the folder of the C library, the wheel has it inside.

Such a wheel is for any Python 3 on one platform.
"""
import os
import shutil
from pathlib import Path

from setuptools import Distribution, setup
from setuptools.command.build_py import build_py

try:
    from setuptools.command.bdist_wheel import bdist_wheel
except ImportError:  # before setuptools 70.1
    try:
        from wheel.bdist_wheel import bdist_wheel
    except ImportError:  # only wheels need it
        bdist_wheel = None

# The library needs glibc 2.14.
PLATFORM = "manylinux_2_17_x86_64"
LIBRARY_FOLDER = os.environ.get("FLATC_LIB_DIR")


class BuildPackage(build_py):
    """Adds the library. Files have the same modes whatever those of the sources and the umask are."""

    def run(self):
        super().run()
        packed = Path(self.build_lib, "flatc", "libflatc.so.0")
        packed.unlink(missing_ok=True)
        if LIBRARY_FOLDER:
            shutil.copyfile(Path(LIBRARY_FOLDER, "libflatc.so"), packed)
        for path in packed.parent.iterdir():
            path.chmod(0o644)


class PlatformDistribution(Distribution):
    """A wheel with the library isn't installed for all platforms."""

    def has_ext_modules(self):
        return bool(LIBRARY_FOLDER)


def commands():
    if bdist_wheel is None:
        return {"build_py": BuildPackage}

    class BuildWheel(bdist_wheel):
        """The library is loaded by ctypes, and needs no version of Python."""

        def get_tag(self):
            return ("py3", "none", PLATFORM) if LIBRARY_FOLDER else super().get_tag()

    return {"build_py": BuildPackage, "bdist_wheel": BuildWheel}


os.umask(0o022)
setup(cmdclass=commands(), distclass=PlatformDistribution)
