"""What ends a command without an answer of the library: one plain line on standard error, and an exit code.

The exit codes of every subcommand: 0 accepted, 1 refused, 2 no such use or no table at all, 3 not built or broken.
"""
ACCEPTED, REFUSED, USAGE, BROKEN = 0, 1, 2, 3


class Trouble(Exception):
    """The command was used wrongly, or what it was given is no table, plan or log at all."""
    code = USAGE


class Broken(Trouble):
    """The library could not be built, or an answer does not add up."""
    code = BROKEN
