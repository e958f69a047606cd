"""The scripts of the repository, which have no ending, as modules. It also lets the package nockmango of python/ be found."""
import importlib.machinery
import importlib.util
import os
import sys

TOP = os.path.dirname(os.path.dirname(os.path.abspath(__file__)))
sys.path.insert(1, f"{TOP}/python")


def loaded(path):
    """Returns a script as a module; what it imports from its own folder is found."""
    sys.path.insert(0, f"{TOP}/{os.path.dirname(path)}")
    loader = importlib.machinery.SourceFileLoader(os.path.basename(path), f"{TOP}/{path}")
    module = importlib.util.module_from_spec(importlib.util.spec_from_loader(loader.name, loader))
    loader.exec_module(module)
    return module
