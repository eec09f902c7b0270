"""What pyproject.toml can't say: the wheel holds the shared library and the French messages, and is of one platform.

The library is the file that TSAV_LIBRARY names, or what bindings/shared writes in the checkout that this folder is in, or that
TSAV_CHECKOUT names.
"""

import os
import re
import shutil
import subprocess
from pathlib import Path

from setuptools import Distribution, setup
from setuptools.command.build_py import build_py

try:
    from setuptools.command.bdist_wheel import bdist_wheel
except ImportError:
    from wheel.bdist_wheel import bdist_wheel

HERE = Path(__file__).resolve().parent
TOP = Path(os.environ.get("TSAV_CHECKOUT") or HERE.parents[1])
CALLS = re.search("^VERSION = ([0-9]+)$", (HERE / "tsav" / "__init__.py").read_text(), re.MULTILINE).group(1)


class Build(build_py):
    def run(self) -> None:
        super().run()
        # An editable one finds the library in the checkout.
        if getattr(self, "editable_mode", False):
            return
        package = Path(self.build_lib) / "tsav"
        library = package / f"libtsav.so.{CALLS}"
        if os.environ.get("TSAV_LIBRARY"):
            shutil.copyfile(os.environ["TSAV_LIBRARY"], library)
        elif (TOP / "bindings" / "shared").is_file():
            subprocess.run([TOP / "bindings" / "shared", library.resolve()], check=True)
        else:
            raise SystemExit("no shared library: TSAV_LIBRARY names it, or TSAV_CHECKOUT a checkout that can build it")
        if (TOP / "rattle-toolchain").is_file():
            shutil.copy(TOP / "rattle-toolchain", package)
        if shutil.which("msgfmt") and (TOP / "bindings" / "messages").is_file():
            locale = package / "command" / "locale"
            subprocess.run([TOP / "bindings" / "messages", locale.resolve()], check=True)


class Binary(Distribution):
    def has_ext_modules(self) -> bool:
        return True


class Wheel(bdist_wheel):
    def get_tag(self) -> tuple:
        # Of every Python 3, and of no ABI of its: the library is loaded by ctypes.
        return "py3", "none", super().get_tag()[2]


setup(distclass=Binary, cmdclass={"build_py": Build, "bdist_wheel": Wheel})
