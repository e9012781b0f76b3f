"""One key-value store, as far as the generated scripts ask it, and the lines that say what was executed."""


def read_entry(line):
    """The words and the reply of a line such as `entry 0.3 SET a 1 = simple OK`."""
    command, reply = line.split(" = ", 1)
    return command.split(" ")[2:], reply


def shown(value):
    """A stored string, or None, as a reply says it."""
    return "null" if value is None else f"bulk {value}"


class Store:
    def __init__(self):
        self.values = {}

    def apply(self, words):
        """Executes a command and gives its reply, as `simulate` writes it."""
        name, *rest = words
        return getattr(self, name.lower())(*rest)

    def set(self, key, value):
        self.values[key] = value
        return "simple OK"

    def setnx(self, key, value):
        if key in self.values:
            return "integer 0"
        self.values[key] = value
        return "integer 1"

    def get(self, key):
        return shown(self.values.get(key))

    def getdel(self, key):
        return shown(self.values.pop(key, None))

    def incr(self, key):
        self.values[key] = str(int(self.values.get(key, "0")) + 1)
        return f"integer {self.values[key]}"

    def append(self, key, value):
        self.values[key] = self.values.get(key, "") + value
        return f"integer {len(self.values[key])}"

    def strlen(self, key):
        return f"integer {len(self.values.get(key, ''))}"

    def mget(self, *keys):
        return "array " + " | ".join(shown(self.values.get(key)) for key in keys)

    def mset(self, *pairs):
        self.values.update(zip(pairs[::2], pairs[1::2]))
        return "simple OK"

    def exists(self, *keys):
        return f"integer {sum(key in self.values for key in keys)}"

    def delete(self, *keys):
        return f"integer {sum(self.values.pop(key, None) is not None for key in keys)}"


setattr(Store, "del", Store.delete)
