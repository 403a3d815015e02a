"""Tags the wheel for the system of its library: Linux on x86-64, any CPython 3."""
from setuptools import setup
from setuptools.dist import Distribution
from wheel.bdist_wheel import bdist_wheel


class Compiled(Distribution):
    """A package that isn't of Python alone."""

    def has_ext_modules(self) -> bool:
        """The library is loaded and not compiled here, and it is for one system all the same."""
        return True


class Tagged(bdist_wheel):
    """A wheel for any CPython 3 of this system."""

    def get_tag(self) -> "tuple[str, str, str]":
        """The three parts of the wheel's tag."""
        return "py3", "none", super().get_tag()[2]


setup(distclass=Compiled, cmdclass={"bdist_wheel": Tagged})
