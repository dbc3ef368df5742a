"""The version of this repository, as the objects of tools have it."""
import pathlib
import sys

sys.path.append(str(pathlib.Path(__file__).resolve().parents[1] / "judge"))
import called


def version():
    """The number in the file VERSION."""
    told = called.release()
    return told[0] if told else "unversioned"
