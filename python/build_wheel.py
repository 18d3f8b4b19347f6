"""Makes the wheel of dramsim.py for pip: a module of one file needs nothing more, so `pip install` asks no index for anything."""

from __future__ import annotations

import base64
import hashlib
import tomllib
import zipfile
from pathlib import Path

HERE = Path(__file__).resolve().parent


def record_of(name: str, text: bytes) -> str:
    """The line of a file in the wheel's RECORD."""
    digest = base64.urlsafe_b64encode(hashlib.sha256(text).digest()).rstrip(b"=").decode()
    return f"{name},sha256={digest},{len(text)}\n"


def build_wheel(wheel_directory: str, config_settings: dict | None = None, metadata_directory: str | None = None) -> str:
    """Writes the wheel into a folder, and gives its name: what pip calls."""
    project = tomllib.loads((HERE / "pyproject.toml").read_text())["project"]
    name, version = project["name"], project["version"]
    folder = f"{name}-{version}.dist-info"
    metadata = f"Metadata-Version: 2.1\nName: {name}\nVersion: {version}\nSummary: {project['description']}\nRequires-Python: {project['requires-python']}\n"
    files = {
        f"{name}.py": (HERE / f"{name}.py").read_bytes(),
        f"{folder}/METADATA": metadata.encode(),
        f"{folder}/WHEEL": b"Wheel-Version: 1.0\nGenerator: dramsim\nRoot-Is-Purelib: true\nTag: py3-none-any\n",
    }
    record = "".join(record_of(path, text) for path, text in files.items()) + f"{folder}/RECORD,,\n"
    wheel = f"{name}-{version}-py3-none-any.whl"
    with zipfile.ZipFile(Path(wheel_directory) / wheel, "w", zipfile.ZIP_DEFLATED) as archive:
        for path, text in {**files, f"{folder}/RECORD": record.encode()}.items():
            archive.writestr(path, text)
    return wheel
