"""A refusal: the program's status and line, and what a reader here has found."""


class Refusal(Exception):
    """status, line: as the program answers. found: what is wrong, as sentences, or None if only the line is known."""

    def __init__(self, status, line, found=None):
        super().__init__(status, line, found)
        self.status, self.line, self.found = status, line, found


class Broken(Exception):
    """What a reader of one file raises. numbers: those of the program's line. found: what is wrong, as a part of a sentence.
    place: where in the file, for example `line 3`, or nothing. to_do: in place of what is to be done by the rule."""

    def __init__(self, numbers, found, place="", to_do=None):
        super().__init__(numbers, found, place, to_do)
        self.numbers, self.found, self.place, self.to_do = numbers, found, place, to_do


class Unreadable(Exception):
    """A file can't be read as the program read it: it isn't a regular file, is too large to look at, or has newer TOML."""
