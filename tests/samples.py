"""Where the files are that tests share: programs of the language, and parts of images. Each is named by its file name alone."""
import glob
import os

TOP = os.path.dirname(os.path.dirname(os.path.abspath(__file__)))
PLACES = [os.path.join(TOP, "tests", "programs", "*"), os.path.join(TOP, "examples", "**", "*.obs")]


def files():
    """The files by their names. No two have the same one."""
    paths = [path for place in PLACES for path in glob.glob(place, recursive=True)]
    found = {os.path.basename(path): path for path in paths}
    assert len(found) == len(paths), "two files of tests/programs/ and examples/ have the same name"
    return found


def path_of(name):
    """The path of a file with this name; where there is none, one that isn't there."""
    return files().get(name, os.path.join(TOP, "tests", "programs", name))


def programs():
    """The paths of all programs of the language, in the order of their names."""
    return [path for name, path in sorted(files().items()) if name.endswith(".obs")]
