"""Tables of rows.

`== NAME` begins a row; each line below it is a call, and behind ` -> ` its wanted answer, `ok` where nothing is wanted.
Lines that begin with # are comments.
"""

import importlib.util
from dataclasses import dataclass, field


@dataclass
class Row:
    name: str
    calls: list = field(default_factory=list)
    wanted: list = field(default_factory=list)
    # How often the row is made, each time with new objects.
    times: int = 1
    # Within how many seconds all of it has to be answered.
    seconds: float | None = None
    # What is printed of the row, such as how many cases it has.
    note: object = ""

    def call(self, call, wanted="ok"):
        self.calls.append(call)
        self.wanted.append(wanted)


# How each byte stands in a word in quotes.
LETTERS = {byte: chr(byte) if 32 <= byte < 127 else f"\\x{byte:02x}" for byte in range(256)}
LETTERS |= {13: "\\r", 10: "\\n", 34: '\\"', 92: "\\\\"}


def quoted(data):
    """Bytes as a word in quotes."""
    return '"' + data.decode("latin-1").translate(LETTERS) + '"'


def word(data):
    """Bytes as a word, in quotes where it needs them: as answers are written."""
    if data and all(33 <= byte < 127 and byte not in b'"\\' for byte in data):
        return data.decode()
    return quoted(data)


def request(*words):
    """A request of these words, as a client writes it."""
    bulks = b"".join(b"$%d\r\n%s\r\n" % (len(each), each) for each in words)
    return b"*%d\r\n" % len(words) + bulks


def rows_in(path):
    """The rows of a table, and those that are generated beside it."""
    rows = read_table(path.read_text().splitlines(), path.name)
    sweeps = path.with_name(path.stem + "_sweeps.py")
    if sweeps.exists():
        spec = importlib.util.spec_from_file_location(sweeps.stem, sweeps)
        module = importlib.util.module_from_spec(spec)
        spec.loader.exec_module(module)
        rows += module.rows()
    names = [row.name for row in rows]
    assert len(set(names)) == len(names), f"{path.name}: a name stands twice"
    return rows


def read_table(lines, name):
    rows = []
    for number, line in enumerate(lines, 1):
        line = line.strip()
        if line.startswith("== "):
            rows.append(Row(line[3:].strip()))
        elif line and not line.startswith("#"):
            assert rows, f"{name}:{number}: a call before the first row"
            call, arrow, wanted = line.rpartition(" -> ")
            if arrow:
                rows[-1].call(call.strip(), wanted.strip())
            else:
                rows[-1].call(line)
    return rows
