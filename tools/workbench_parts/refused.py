"""What a request may hold: fields, each of its kind and within its bounds."""
import re

# Names of files: no folders, nothing hidden, nothing that reads as an option.
NAME = re.compile(r"[A-Za-z0-9_][A-Za-z0-9_.+-]{0,99}")


class Refused(Exception):
    """A request that is not answered: `status` is that of HTTP."""

    def __init__(self, status, why):
        super().__init__(why)
        self.status = status


def fields(body, **kinds):
    """The fields of a request, each judged by its kind; a missing one is judged as None."""
    unknown = sorted(set(body) - set(kinds))
    if unknown:
        raise Refused(400, f"no field is called {unknown[0][:40]!r}")
    found = {}
    for name, kind in kinds.items():
        try:
            found[name] = kind(body.get(name))
        except ValueError as error:
            raise Refused(400, f"{name}: {error}") from None
    return found


def whole(least, most):
    """The kind of a whole number from `least` to `most`."""
    def judge(value):
        if isinstance(value, bool) or not isinstance(value, int) or not least <= value <= most:
            raise ValueError(f"is no whole number from {least} to {most}")
        return value
    return judge


def decimal(value):
    """The kind of a number of any sign, below a million millions."""
    if isinstance(value, bool) or not isinstance(value, (int, float)) or not abs(value) < 1e12:
        raise ValueError("is no number below 1e12")
    return value


def text(most):
    """The kind of a text of at most so many bytes of UTF-8."""
    def judge(value):
        if not isinstance(value, str):
            raise ValueError("is no text")
        try:
            size = len(value.encode())
        except UnicodeEncodeError:
            raise ValueError("is no text of whole characters") from None
        if size > most:
            raise ValueError(f"is longer than {most} bytes")
        return value
    return judge


def named(end):
    """The kind of a file's name that ends so, without a folder."""
    def judge(value):
        if not isinstance(value, str) or not NAME.fullmatch(value) or not value.endswith(end):
            raise ValueError(f"is no name of a file that ends with {end}")
        return value
    return judge


def one_of(*values):
    """The kind of a value that is one of these."""
    def judge(value):
        if isinstance(value, (dict, list)) or value not in values:
            raise ValueError(f"is none of {', '.join(map(str, values))}")
        return value
    return judge


def listed(kind, least, most):
    """The kind of a list of `least` to `most` values of a kind."""
    def judge(value):
        if not isinstance(value, list) or not least <= len(value) <= most:
            raise ValueError(f"is no list of {least} to {most}")
        return [kind(each) for each in value]
    return judge


def maybe(kind):
    """The kind of a value that may be left out."""
    return lambda value: None if value is None else kind(value)
