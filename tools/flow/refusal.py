"""What the flow cannot take, said in one line."""


class Refusal(Exception):
    """A file, perhaps a line of it, and what is due there.

    Every stage raises this and nothing else for what its user can change, so that `make` says it in one
    line and writes nothing.
    """

    def __init__(self, file, line, why):
        place = file if line is None else f"{file}, line {line}"
        super().__init__(f"{place}: {why}")
