"""How the commands of this folder end."""
import os
import sys


def ends(main):
    """Ends the program by what `main` gives as its status. A reader that has gone away is no fault of it."""
    try:
        status = main()
        sys.stdout.flush()
    except BrokenPipeError:
        # What is left to be written has no reader.
        os.dup2(os.open(os.devnull, os.O_WRONLY), sys.stdout.fileno())
        status = 1
    sys.exit(status)
