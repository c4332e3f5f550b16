"""Make a copy of the repository, for scripts that change files and then call rt."""
import contextlib
import os
import shutil
import tempfile

TOP = os.path.realpath(os.path.join(os.path.dirname(os.path.abspath(__file__)), ".."))


@contextlib.contextmanager
def copy_repository(whole=(), with_libraries=True):
    """Make a copy of the repository, and remove it afterwards. Yield its folder.

    Of the folders out/, where checks keep files, the copy has all files for the crates in `whole`, and only the built libraries
    for the other crates (none if `with_libraries` is False)."""

    def left_out(folder, names):
        if os.path.basename(folder) == "out" and os.path.basename(os.path.dirname(folder)) not in whole:
            return [name for name in names if name != "rlib" or not with_libraries]
        return [name for name in names if name == ".git"]

    with tempfile.TemporaryDirectory(prefix="copied-") as room:
        copy = os.path.join(room, "repository")
        shutil.copytree(TOP, copy, ignore=left_out, symlinks=True)
        yield copy


def change_file(path, change):
    """Apply `change` to the text of a file. Return the text that the file had before."""
    with open(path, encoding="utf-8") as file:
        text = file.read()
    with open(path, "w", encoding="utf-8") as file:
        file.write(change(text))
    return text
