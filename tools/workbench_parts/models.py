"""The models that the page can open: the examples, and the scripts of the folder given."""
import hashlib
import os
import re
import shlex
import shutil

from workbench_parts.refused import NAME, Refused

TOP = os.path.realpath(os.path.join(os.path.dirname(__file__), "..", ".."))
EXAMPLES = os.path.join(TOP, "examples")
MOST_SCRIPT, MOST_AGENTS = 1 << 20, 1 << 26
MOST_LISTED = 500


def digest(content):
    return hashlib.sha256(content).hexdigest()


def read(path, most):
    """The bytes of a plain file of at most so many."""
    try:
        with open(path, "rb") as file:
            content = file.read(most + 1)
    except OSError as error:
        raise Refused(404, f"{os.path.basename(path)}: {error.strerror}") from None
    if len(content) > most:
        raise Refused(413, f"{os.path.basename(path)} is longer than {most} bytes")
    return content


def decoded(content, path):
    try:
        return content.decode("utf-8-sig")
    except UnicodeDecodeError:
        raise Refused(400, f"{os.path.basename(path)} is not in UTF-8") from None


def write(path, content):
    """Writes a file in one step; one that was there keeps its permissions."""
    draft = f"{path}.{os.getpid()}.part"
    try:
        with open(draft, "xb") as file:
            file.write(content)
        if os.path.exists(path):
            shutil.copymode(path, draft)
        os.replace(draft, path)
    finally:
        if os.path.exists(draft):
            os.remove(draft)


class Models:
    """Lists, reads and saves; `folder` is the user's, or None. Only what is named is read."""

    def __init__(self, folder):
        self.folder = None if folder is None else os.path.realpath(folder)

    def listed(self):
        """What there is to open: names alone."""
        examples = [name for name in sorted(os.listdir(EXAMPLES))
                    if os.path.exists(os.path.join(EXAMPLES, name, f"{name}.brasil"))]
        return {"examples": [{"name": name, "title": self.title(name)} for name in examples],
                "folder": self.folder, "scripts": self.mine(".brasil"), "tables": self.mine(".csv")}

    @staticmethod
    def title(name):
        """The heading of an example's page."""
        page = decoded(read(os.path.join(EXAMPLES, name, "README.md"), MOST_SCRIPT), name)
        return page.split("\n", 1)[0].lstrip("# ")

    def mine(self, end):
        """The user's files that end so."""
        if self.folder is None:
            return []
        names = [name for name in os.listdir(self.folder)
                 if name.endswith(end) and NAME.fullmatch(name) and self.is_inside(name)]
        return sorted(names)[:MOST_LISTED]

    def is_inside(self, name):
        """Whether this is a plain file of the folder; a link that leads out of it is not."""
        path = os.path.realpath(os.path.join(self.folder, name))
        return os.path.isfile(path) and os.path.dirname(path) == self.folder

    def path(self, name):
        """Where a file of the user's is, which the page has listed."""
        if self.folder is None or not NAME.fullmatch(name) or not self.is_inside(name):
            raise Refused(404, f"{name[:100]} is no file of the folder given")
        return os.path.join(self.folder, name)

    def example(self, name):
        """An example: its script and agents, and the ticks of its command."""
        if name not in [each["name"] for each in self.listed()["examples"]]:
            raise Refused(404, f"{name[:100]} is no example")
        here = os.path.join(EXAMPLES, name)
        with open(os.path.join(here, "command"), encoding="utf-8") as file:
            words = shlex.split(file.read())
        given = dict(zip(words[2::2], words[3::2]))
        return {**self.script(os.path.join(here, f"{name}.brasil"), given["--script"]),
                **self.agents(os.path.join(TOP, given["--agents"]), given["--agents"]),
                "ticks": int(given["--ticks"])}

    def own(self, name):
        """A script of the user's, with the agents beside it that have its name."""
        path = self.path(name)
        opened, table = self.script(path, path), re.sub(r"\.brasil$", ".csv", name)
        if table in self.mine(".csv"):
            opened.update(self.table(table))
        return opened

    def table(self, name):
        """An agent file of the user's."""
        return self.agents(self.path(name), self.path(name))

    @staticmethod
    def script(path, shown):
        content = read(path, MOST_SCRIPT)
        return {"name": os.path.basename(path), "script": decoded(content, path),
                "scriptPath": shown, "was": digest(content)}

    @staticmethod
    def agents(path, shown):
        return {"agents": decoded(read(path, MOST_AGENTS), path), "agentsPath": shown,
                "agentsName": os.path.basename(path)}

    def save(self, name, script, was):
        """Writes a script into the folder: the one that was opened, or one of a new name.

        `was` is what the file held when it was opened; None asks that there is none yet.
        """
        if self.folder is None:
            raise Refused(403, "no folder was given to the workbench")
        path, content = os.path.join(self.folder, name), script.encode()
        if os.path.lexists(path):
            if was is None or digest(read(self.path(name), MOST_SCRIPT)) != was:
                raise Refused(409, f"{name} was changed by another program, or is there already")
        elif was is not None:
            raise Refused(409, f"{name} is gone")
        try:
            write(path, content)
        except OSError as error:
            raise Refused(403, f"{name}: {error.strerror}") from None
        return {"was": digest(content), "scriptPath": path}
