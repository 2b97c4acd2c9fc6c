"""The program `wathread`, where it is on the path or named: it shows the rows of a run, and looks for one."""
from __future__ import annotations

import shutil
import subprocess
import tempfile
from contextlib import contextmanager
from dataclasses import dataclass
from pathlib import Path
from typing import Iterator, List, Optional, Sequence

from ._types import Argument, Word, i32

SECONDS = 60


@contextmanager
def _folder_with(module: bytes) -> Iterator[Path]:
    """A folder with the module, which is gone behind it."""
    with tempfile.TemporaryDirectory(prefix="wathread.") as name:
        (Path(name) / "module.wasm").write_bytes(module)
        yield Path(name)


def _argument(it: Argument) -> str:
    return str((it if isinstance(it, Word) else i32(it)).bits)


@dataclass(frozen=True)
class Program:
    path: str

    @staticmethod
    def find(named: Optional[str] = None) -> Optional[Program]:
        path = shutil.which(named or "wathread")
        return Program(path) if path else None

    def _said(self, folder: Path, words: Sequence[str]) -> subprocess.CompletedProcess[str]:
        return subprocess.run([self.path, *words], cwd=folder, stdin=subprocess.DEVNULL, capture_output=True, text=True,
                              errors="replace", timeout=SECONDS, check=False)

    def rows(self, module: bytes, record: bytes, most: int = 60) -> str:
        """The last rows of a record, as `wathread show` prints them, or why there are none."""
        with _folder_with(module) as folder:
            (folder / "run.record").write_bytes(record)
            said = self._said(folder, ["show", "module.wasm", "run.record", "--no-explain"])
        if said.returncode != 0:
            return f"{self.path} show: status {said.returncode}: {said.stderr.strip()}"
        lines: List[str] = said.stdout.splitlines()
        before = [f"({len(lines) - most} rows before)"] if len(lines) > most else []
        return "\n".join(before + lines[-most:])

    def record_of(self, module: bytes, name: str, args: Sequence[Argument], find: str, states: int) -> Optional[bytes]:
        """The record of a run that a search through every order finds by these words, or nothing."""
        words = ["search", "module.wasm", f"--invoke={name}", "--all", "--orders=all", f"--states={states}",
                 f"--find={find}", "--record=run.record", f"--time={SECONDS // 2}", "--no-explain", "--"]
        words += map(_argument, args)
        with _folder_with(module) as folder:
            self._said(folder, words)
            kept = folder / "run.record"
            return kept.read_bytes() if kept.exists() else None
