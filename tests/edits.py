"""The edits of tests/wrong_versions, which says what they look like: read, made, and placed in the functions that they change."""
import pathlib
import re

FUNCTION = re.compile(r"^( *)(?:pub )?(?:extern \"C\" )?fn (\w+)")
METHODS = re.compile(r"^impl(?:<.*?>)? (?:.* for )?(\w+)")


class BadEdit(Exception):
    pass


class Edit:
    """One wrong version: what it has to have refused, and its replacements (file, old text, new text)."""

    def __init__(self, path):
        self.path, self.label = path, path.stem
        self.named, self.also, self.alone, self.changes = [], [], False, []
        file, old = None, ""
        for line in path.read_text(encoding="utf-8").split("\n"):
            key, _, rest = line.partition(":")
            rest = rest.removeprefix(" ")
            if key == "refused" and file is None:
                self.named.append(rest.strip())
            elif key == "also" and file is None:
                self.also += rest.split()
            elif key == "alone" and file is None:
                self.alone = True
            elif key == "file":
                file = rest
            elif key == "old":
                old = rest
            elif key == "new":
                self.changes.append((file, old, rest))
                old = ""
        if len(self.named) != 1 or not self.changes:
            raise BadEdit("it needs one line 'refused:' before its first 'file:', and a pair of 'old:' and 'new:'")

    def due(self):
        return set(self.named) | set(self.also)

    def applied(self, texts):
        """The crate's texts with the replacements made in turn, and the functions in whose bodies or proofs they lie (None: in none)."""
        texts, inside = dict(texts), set()
        for file, old, new in self.changes:
            text = texts.get(file, "")
            if not old or text.count(old) != 1:
                raise BadEdit(f"a text to be replaced does not stand in {file} exactly once")
            begin = text.index(old)
            inside.add(function_at(file, text, begin, begin + len(old)))
            texts[file] = text.replace(old, new)
        return texts, inside


def functions_of(file, text):
    """The functions of a file of src/: name as under proofs/ (a method's has its type before it), where its text begins, its attributes too, where its body begins and ends."""
    module = pathlib.Path(file).stem
    module = "" if module in ("lib", "main") else module + "/"
    at, name, begin, body, owner, margin, above = 0, None, 0, None, "", "", None
    for line in text.split("\n"):
        if not line.startswith((" ", "}")) and line:
            methods = METHODS.match(line)
            owner = methods.group(1) + "/" if methods else ""
        head = FUNCTION.match(line)
        if head:
            margin = head.group(1)
            name, begin, body = module + (owner if margin else "") + head.group(2), at if above is None else above, None
        if name and body is None and (line == margin + "{" or (line.endswith("{") and not line.startswith(margin + " "))):
            body = at + len(line)
        elif name and body is not None and line == margin + "}":
            yield name, begin, body, at
            name = None
        above = (at if above is None else above) if line.lstrip().startswith("#[") else None
        at += len(line) + 1


def function_at(file, text, begin, end):
    """The function in whose body, or in whose own proof, a piece of text lies, or None."""
    proof = re.fullmatch(r"proofs/(.+)/(?:Answers|Invariants)\.antt", file)
    if proof:
        return proof.group(1)
    if not file.startswith("src/"):
        return None
    return next((name for name, _, body, close in functions_of(file, text) if body <= begin and end <= close), None)
