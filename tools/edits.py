"""Edits that make a crate wrong: lines `file: `, and behind each pairs of lines `old: ` and `new: `; a wrong body has its function in a
first line `fn: `."""


class Edit:
    def __init__(self, path):
        self.path, self.crate, self.name = path, path.parent.parent.name, path.stem
        self.function, self.changes = None, []
        file = old = None
        for line in path.read_text().split("\n"):
            key, _, text = line.partition(":")
            text = text.removeprefix(" ")
            if key == "fn":
                self.function = text.strip()
            elif key == "file":
                file = text.strip()
            elif key == "old":
                old = text
            elif key == "new":
                self.changes.append((file, old, text))
                old = None

    def texts(self, folder):
        """The new texts of the files that it changes below the crate's folder, and why it can't be applied, or nothing."""
        found = {}
        for file, old, new in self.changes:
            if file is None or old is None:
                return {}, "a line new: has no lines file: and old: before it"
            if not (folder / file).is_file():
                return {}, f"no file {file}"
            text = found.get(file) or (folder / file).read_text()
            if text.count(old) != 1:
                return {}, f"its old: stands {text.count(old)} times in {file}"
            found[file] = text.replace(old, new)
        return found, None if found else "it changes nothing"
