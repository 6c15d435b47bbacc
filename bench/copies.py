"""A copy of the repository, without what was built, that a script may change."""
import contextlib
import os
import shutil
import tempfile


@contextlib.contextmanager
def repository_copy():
    top = os.path.dirname(os.path.dirname(os.path.abspath(__file__)))
    with tempfile.TemporaryDirectory() as folder:
        copy = os.path.join(folder, "repository")
        shutil.copytree(top, copy, ignore=shutil.ignore_patterns("out", ".git"))
        yield copy
