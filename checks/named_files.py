"""The files that random lists name, in the working folder."""
import os

from components import FILE_MOST
from list_cases import HUGE
from random_lists import FILES


class Huge:
    """What is known of a file that is too long, which Python needn't read."""

    def __len__(self):
        return FILE_MOST + 1


def read(name):
    """The bytes of a file in the folder, or None."""
    if name == HUGE:
        return Huge()
    try:
        with open(name, "rb") as file:
            return file.read()
    except (OSError, ValueError):
        return None


def write(name, content):
    with open(name, "wb") as file:
        file.write(content)


def lay_out():
    """The files that the lists name."""
    for name, content in FILES.items():
        write(name, content)
    for index in range(8):
        write(f"byte {index}", bytes([index + 1]))
    write(HUGE, b"")
    os.truncate(HUGE, FILE_MOST + 1)
    os.makedirs("folder", exist_ok=True)
