# Gives the answer to the two texts of a folder.
#
# usage: python3 reference/folder_answer.py FOLDER

import os
import sys

from answers import answer


def text_in(folder, name):
    """The bytes of a file in the folder."""
    with open(os.path.join(folder, name), "rb") as file:
        return file.read()


def main(arguments):
    if len(arguments) != 1:
        print("usage: python3 reference/folder_answer.py FOLDER", file=sys.stderr)
        return 2
    folder = arguments[0]
    sys.stdout.buffer.write(answer(text_in(folder, "terms.txt"), text_in(folder, "day.txt")))
    return 0


if __name__ == "__main__":
    sys.exit(main(sys.argv[1:]))
