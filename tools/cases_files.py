"""The files of a test program's crate: what it reads, and what it then has to write."""
import os

CRATES = os.path.join(os.path.dirname(os.path.abspath(__file__)), "..", "crates")


def path_of(crate, name):
    return os.path.join(CRATES, crate, name)


def write_files(crate, requests, printed):
    """Writes the bytes of the requests into the file stdin of the crate, and the expected text into its file stdout."""
    with open(path_of(crate, "stdin"), "wb") as file:
        file.write(requests)
    with open(path_of(crate, "stdout"), "w", encoding="ascii") as file:
        file.write(printed)
