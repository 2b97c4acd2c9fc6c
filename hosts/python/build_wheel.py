"""Builds the wheel, by PEP 517, with nothing but the standard library: so pip needs no network for it.

It reads pyproject.toml, of which each value that it takes stands on one line. A shared object that lies beside the
package's modules goes along.
"""
from __future__ import annotations

import base64
import configparser
import hashlib
import zipfile
from pathlib import Path
from typing import Any, Dict, Optional

HERE = Path(__file__).resolve().parent
PACKAGE = "wathread"


def _project() -> configparser.ConfigParser:
    found = configparser.ConfigParser(interpolation=None)
    found.read(HERE / "pyproject.toml", encoding="utf-8")
    return found


def _metadata(project: Dict[str, str]) -> str:
    head = [
        "Metadata-Version: 2.1",
        f"Name: {project['name']}",
        f"Version: {project['version']}",
        f"Summary: {project['description']}",
        f"Requires-Python: {project['requires-python']}",
        "License: MIT",
        "Description-Content-Type: text/markdown",
    ]
    return "\n".join(head) + "\n\n" + (HERE / project["readme"]).read_text(encoding="utf-8")


def _files() -> Dict[str, bytes]:
    """What the wheel has, by name: the package, and what is said of it."""
    parsed = _project()
    project = {key: value.strip('"') for key, value in parsed["project"].items()}
    kept = {f"{PACKAGE}/{it.name}": it.read_bytes() for it in sorted((HERE / PACKAGE).iterdir()) if it.is_file()}
    is_pure = not any(".so" in name for name in kept)
    tag = "py3-none-any" if is_pure else "py3-none-linux_x86_64"
    named = parsed["project.entry-points.pytest11"].items()
    entries = "\n".join(f"{key} = " + value.strip('"') for key, value in named)
    info = f"{project['name']}-{project['version']}.dist-info"
    wheel = f"Wheel-Version: 1.0\nGenerator: build_wheel\nRoot-Is-Purelib: {str(is_pure).lower()}\nTag: {tag}\n"
    kept[f"{info}/METADATA"] = _metadata(project).encode()
    kept[f"{info}/WHEEL"] = wheel.encode()
    kept[f"{info}/entry_points.txt"] = f"[pytest11]\n{entries}\n".encode()
    kept[f"{info}/RECORD"] = _record(kept, info).encode()
    return kept


def _record(files: Dict[str, bytes], info: str) -> str:
    def row(name: str, data: bytes) -> str:
        digest = base64.urlsafe_b64encode(hashlib.sha256(data).digest()).rstrip(b"=").decode()
        return f"{name},sha256={digest},{len(data)}\n"

    return "".join(row(name, data) for name, data in files.items()) + f"{info}/RECORD,,\n"


def build_wheel(folder: str, settings: Optional[Dict[str, Any]] = None, metadata: Optional[str] = None) -> str:
    files = _files()
    info = next(name.split("/")[0] for name in files if name.endswith(".dist-info/WHEEL"))
    tag = files[f"{info}/WHEEL"].decode().split("Tag: ")[1].strip()
    name = f"{info[: -len('.dist-info')]}-{tag}.whl"
    with zipfile.ZipFile(Path(folder) / name, "w", zipfile.ZIP_DEFLATED) as wheel:
        for path, data in files.items():
            wheel.writestr(zipfile.ZipInfo(path, (2026, 1, 1, 0, 0, 0)), data, zipfile.ZIP_DEFLATED)
    return name
