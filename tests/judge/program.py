"""Runs of the built program, in a folder of their own."""
import re
import shutil
import subprocess
import tempfile
from pathlib import Path
from types import SimpleNamespace


class Program:
    """The program, whose answers a spoil may change. It keeps the last words and files, to be shown."""

    def __init__(self, path, spoil=None):
        self.path, self.spoil = str(Path(path).resolve()), spoil
        self.folder = Path(tempfile.mkdtemp(prefix="judge-"))
        self.runs = 0
        self.last = None

    def run(self, words, files, made=()):
        """Runs the program over files of these texts, where it may make others. Answers its words and
        files, its exit status, what it printed, and the files that it made."""
        for name, text in files.items():
            (self.folder / name).write_text(text)
        self.last = words, files
        self.runs += 1
        ran = subprocess.run([self.path, *map(str, words)], cwd=self.folder, capture_output=True, text=True, stdin=subprocess.DEVNULL, timeout=60, check=False)
        answer = SimpleNamespace(words=words, files=files, status=ran.returncode, out=ran.stdout, err=ran.stderr)
        answer.made = {name: self.take(name) for name in made}
        if self.spoil:
            self.spoil(answer)
        return answer

    def take(self, name):
        """The text of a file that was made, or None. It is there for one run alone."""
        path = self.folder / name
        text = path.read_bytes().decode() if path.exists() else None
        path.unlink(missing_ok=True)
        return text

    def show(self, what):
        """The command of the last run, with its files: of the code alone of which something was said, if one was."""
        code, (words, files) = re.findall("^code (.*?):", what), self.last
        rows = [f"telexplan {' '.join(map(str, words))}"]
        for name, text in files.items():
            rows += [f"--- {name}", *(row for row in text.splitlines() if not code or code[0] in row.split() or not re.match(r"\s*(CODE|ROUTE|BAR|RANK)", row))]
        return "\n".join(rows[:60])

    def end(self):
        shutil.rmtree(self.folder)
