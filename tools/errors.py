"""What is wrong with an input, and where."""


class BadInput(Exception):
    """A fault of a text, an image or a token list, with its place in words."""

    def __init__(self, message, line=None, column=None):
        self.message, self.line, self.column = message, line, column
        place = ""
        if line is not None:
            place = f"line {line}, " if column is not None else f"line {line}: "
        if column is not None:
            place += f"column {column}: "
        super().__init__(place + message)
