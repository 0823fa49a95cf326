"""The rows of rows/, as rows/check reads them, and what the program answers."""
import importlib.machinery
import importlib.util
import pathlib
import tempfile

TOP = pathlib.Path(__file__).resolve().parent.parent
LOADER = importlib.machinery.SourceFileLoader("rows_check", str(TOP / "rows/check"))
CHECK = importlib.util.module_from_spec(importlib.util.spec_from_loader("rows_check", LOADER))
LOADER.exec_module(CHECK)


def rows_of(path):
    return CHECK.Reader(path).read()


def answer(program, words, name, source, beside=None):
    """What a run writes and logs, and its status, where a file of this name has this source, and where there may be a second file."""
    with tempfile.TemporaryDirectory() as folder:
        return CHECK.answer(program, folder, words, name, source, beside)
