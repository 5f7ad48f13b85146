"""Scripts as modules, whatever the ending of their names."""
import importlib.machinery
import importlib.util
import os


def module_of(path):
    """The script at a path as a module."""
    path = os.path.realpath(path)
    loader = importlib.machinery.SourceFileLoader(os.path.basename(path), path)
    module = importlib.util.module_from_spec(importlib.util.spec_from_loader(loader.name, loader))
    loader.exec_module(module)
    return module
