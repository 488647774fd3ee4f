"""The command `tbson`."""

from __future__ import annotations

import signal
import sys
from types import FrameType
from typing import Optional

import click

from tbson._version import __version__
from tbson.command.check import check
from tbson.command.common import INTERRUPTED, Interrupted
from tbson.command.diff import diff
from tbson.command.infer import infer
from tbson.command.merge import merge
from tbson.command.migrate import migrate
from tbson.command.profile import profile
from tbson.command.texts import EXIT_STATUS, OVERVIEW

_SETTINGS = {"help_option_names": ["-h", "--help"], "max_content_width": 110}
_KILLED = 128


@click.group(context_settings=_SETTINGS, help=OVERVIEW, epilog=EXIT_STATUS)
@click.version_option(__version__, "-V", "--version", message="tbson %(version)s")
def tbson() -> None:
    """The command, which has others below it."""


for command in (profile, infer, migrate, check, merge, diff):
    tbson.add_command(command)


def _end(number: int, _: Optional[FrameType]) -> None:
    """Ends as at Ctrl-C, so that no file stays."""
    raise KeyboardInterrupt(number)


def main() -> None:
    """Runs the command, and ends with its exit status."""
    for number in (signal.SIGTERM, signal.SIGHUP):
        signal.signal(number, _end)
    try:
        status = tbson.main(prog_name="tbson", standalone_mode=False)
        sys.stdout.flush()
    except click.ClickException as error:
        error.show()
        status = error.exit_code
    except (click.Abort, KeyboardInterrupt):
        Interrupted().show()
        status = INTERRUPTED
    except BrokenPipeError:
        # Whoever read the output has seen enough. Nothing more can be written, also not when Python ends.
        sys.stdout = None  # type: ignore[assignment]
        status = _KILLED + signal.SIGPIPE
    sys.exit(status)
