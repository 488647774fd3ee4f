"""The command `tbson`, which pauses when it has read two parts of a file: it writes a byte to the file descriptor that its first word says, and waits for a signal."""

import os
import sys
import time

from tbson.inputs import Source

READ = Source.parts


def parts(source, *given):
    for number, part in enumerate(READ(source, *given), 1):
        yield part
        if number == 2:
            os.write(int(told), b"!")
            while True:
                time.sleep(0.01)


if __name__ == "__main__":
    Source.parts = parts
    told = sys.argv.pop(1)
    from tbson.__main__ import main

    main()
