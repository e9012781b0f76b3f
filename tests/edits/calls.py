"""Which functions of a crate call which, as far as their texts tell: by the words before a call, so rather too many than too few."""

import re

import edits

# A call: `self.`, another `.`, a path or nothing, then the function's name, and its types.
CALL = re.compile(r"(\bself\.|\.|(?:\b\w+(?:::<[^()]*?>)?::)*)\b(\w+)(?:::<[^()]*?>)?\(")


class Calls:
    """The functions of a crate, by their paths, and those that each calls."""

    def __init__(self, folder):
        bodies = {}
        for file in sorted(folder.glob("src/**/*.rt")):
            text = file.read_text(encoding="utf-8")
            for head in edits.HEAD.finditer(text):
                end = re.compile(rf"^{head[1]}\}}", re.M).search(text, head.end())
                path = end and edits.function_at(str(file.relative_to(folder)), text, head.end())
                if path:
                    bodies[path] = bodies.get(path, "") + text[head.end() : end.start()]
        self.by_name = {}
        for path in bodies:
            self.by_name.setdefault(path.split("::")[-1], []).append(path)
        self.called = {path: self.named_in(path, body) for path, body in bodies.items()}

    def named_in(self, path, body):
        """The functions that a body may call."""
        return {it for call in CALL.finditer(body) for it in self.meant(path, call[1], call[2])}

    def meant(self, path, before, name):
        """The functions of that name that the words before it may mean."""
        found = self.by_name.get(name, [])
        owner = before.removesuffix("::").split("::")[-1]
        if before == "self." or owner == "Self":
            owner = owner_of(path)
        own = [it for it in found if owner and is_of(it, owner)]
        return own or [it for it in found if bool(owner_of(it)) == before.endswith(".")]

    def reached_from(self, path):
        """The functions that one calls, itself or through others."""
        found, left = set(), [path]
        while left:
            for it in self.called.get(left.pop(), ()):
                if it not in found:
                    found.add(it)
                    left.append(it)
        return found


def owner_of(path):
    """The type or trait that a function belongs to, empty for a free one."""
    words = path.split("::")[-2:-1]
    return words[0] if words and words[0][:1].isupper() else ""


def is_of(path, owner):
    """Whether a function belongs to that type, or to a trait's `impl` for it."""
    found = owner_of(path)
    return bool(found) and (found.startswith(owner) or owner.startswith(found))


def plain(name):
    """The path of a function in the crate, of what the prover calls it."""
    return re.sub(r"\+[^:]*", "", name)
