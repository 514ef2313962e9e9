"""The files of the repository, and where in one a fault is."""
import os

ROOT = os.path.join(os.path.dirname(os.path.abspath(__file__)), "..", "..")


def read(path):
    with open(os.path.join(ROOT, path), encoding="utf-8", errors="replace") as file:
        return file.read()


def write(path, text):
    with open(os.path.join(ROOT, path), "w", encoding="utf-8") as file:
        file.write(text)


def all_files():
    """The paths of the repository's files, but for what is built or proved into a folder of its own."""
    for folder, folders, names in os.walk(ROOT):
        folders[:] = [f for f in folders if f not in (".git", "target", "out", "__pycache__")]
        for name in names:
            yield os.path.relpath(os.path.join(folder, name), ROOT)


def parents(path):
    while path := os.path.dirname(path):
        yield path


def line_at(text, place):
    return text.count("\n", 0, place) + 1


def fault_at(path, text, place, what):
    return f"{path}:{line_at(text, place)}: {what}"
