"""Builds the package, with the pages of docs/ that its explanations quote."""
import os
import shutil

from setuptools import setup
from setuptools.command.build_py import build_py

DOCS = os.path.join(os.path.dirname(os.path.abspath(__file__)), "..", "docs")
PAGES = ("INSCRIPTIONS.md", "REFUSALS.md", "net.schema.json")


class BuildWithPages(build_py):
    """Builds the modules, and copies the pages beside those that read them."""

    def run(self):
        super().run()
        pages = os.path.join(self.build_lib, "nockmango", "explaining", "pages")
        os.makedirs(pages, exist_ok=True)
        for page in PAGES:
            shutil.copyfile(os.path.join(DOCS, page), os.path.join(pages, page))


setup(cmdclass={"build_py": BuildWithPages})
