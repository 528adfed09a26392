"""Files that stand beside the program and go into what it writes."""

from pathlib import Path

HERE = Path(__file__).resolve().parent


def kept(name):
    return (HERE / name).read_text()
