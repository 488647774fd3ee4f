"""`tbson`, and `python3 -m tbson`."""

import signal


def main() -> None:
    """Runs the command."""
    # While the modules are loaded nothing was written, so an interrupt ends the process at once.
    handler = signal.signal(signal.SIGINT, signal.SIG_DFL)
    from tbson.command import main as run

    signal.signal(signal.SIGINT, handler)
    run()


if __name__ == "__main__":
    main()
