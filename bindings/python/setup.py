"""The wheel: pure Python, and the shared library of x86-64 Linux; its version is the header's."""
import os
import re

from setuptools import setup
from setuptools.dist import Distribution
from wheel.bdist_wheel import bdist_wheel

PACKAGE = os.path.join(os.path.dirname(os.path.abspath(__file__)), "src", "gullyfork")


class Binary(Distribution):
    """It holds a library for one kind of machine, though nothing is compiled here."""

    def has_ext_modules(self):
        return True


class AnyPython(bdist_wheel):
    """The library is no extension module: any Python 3 loads it, on a Linux whose C library is not older than the library asks for."""

    def get_tag(self):
        with open(os.path.join(PACKAGE, "libgullyfork.so"), "rb") as f:
            needed = re.findall(rb"\0GLIBC_(\d+)\.(\d+)", f.read())
        return "py3", "none", "manylinux_%d_%d_x86_64" % max((int(major), int(minor)) for major, minor in needed)


def version():
    with open(os.path.join(PACKAGE, "gullyfork.h"), encoding="utf-8") as f:
        return re.search(r'^#define GF_VERSION "(.*)"', f.read(), re.M)[1]


setup(version=version(), distclass=Binary, cmdclass={"bdist_wheel": AnyPython})
