"""Makes wheels of the package, and archives of its sources: for pip, whose build backend this is,
and, with the library and the program in it, for packaging/wheel.py. It needs Python alone, so
neither a network nor another package, and writes into no folder but the one that it is given. Where
SOURCE_DATE_EPOCH is set the times are that, so the same files give the same bytes."""
import base64
import gzip
import hashlib
import io
import os
import re
import tarfile
import time
import zipfile
from pathlib import Path

FOLDER = Path(__file__).resolve().parent


def field(name):
    """A field of [project], which is a text on one line."""
    project = (FOLDER / "pyproject.toml").read_text(encoding="utf-8")
    return re.search(rf'^{name} = "([^"]*)"$', project, re.MULTILINE).group(1)


def fields(name):
    """A field of [project], which is a list of texts."""
    project = (FOLDER / "pyproject.toml").read_text(encoding="utf-8")
    listed = re.search(rf"^{name} = \[([^\]]*)\]$", project, re.MULTILINE).group(1)
    return re.findall(r'"([^"]*)"', listed)


def metadata():
    """What is said of the package, and the text of its docstring, which is its page."""
    description = (FOLDER / "bearoff" / "__init__.py").read_text(encoding="utf-8").split('"""')[1]
    classifiers = "".join(f"Classifier: {it}\n" for it in fields("classifiers"))
    return f"""Metadata-Version: 2.1
Name: bearoff
Version: {field("version")}
Summary: {field("description")}
Keywords: {",".join(fields("keywords"))}
{classifiers}Requires-Python: {field("requires-python")}
Description-Content-Type: text/x-rst

{description}"""


def moment():
    """The time of all that is made, in seconds; an archive has none before 1980."""
    return max(int(os.environ.get("SOURCE_DATE_EPOCH", time.time())), 315532800)


def sources():
    """The package's own files, by their places in the wheel."""
    files = [
        file for file in sorted((FOLDER / "bearoff").iterdir()) if file.suffix in (".py", ".typed")
    ]
    return {f"bearoff/{file.name}": (file.read_bytes(), 0o644) for file in files}


def write_wheel(to, tag, parts):
    """Writes the wheel with these files, each with its mode, and tells its name."""
    name = f"bearoff-{field('version')}"
    info = f"{name}.dist-info"
    python, abi, platforms = tag.split("-")
    tags = "".join(f"Tag: {python}-{abi}-{platform}\n" for platform in platforms.split("."))
    is_pure = str(platforms == "any").lower()
    wheel = f"Wheel-Version: 1.0\nGenerator: bearoff\nRoot-Is-Purelib: {is_pure}\n{tags}"
    parts = {
        **parts,
        f"{info}/METADATA": (metadata().encode(), 0o644),
        f"{info}/WHEEL": (wheel.encode(), 0o644),
    }
    record = ""
    for path, (content, _) in parts.items():
        digest = base64.urlsafe_b64encode(hashlib.sha256(content).digest()).rstrip(b"=").decode()
        record += f"{path},sha256={digest},{len(content)}\n"
    parts[f"{info}/RECORD"] = (record + f"{info}/RECORD,,\n").encode(), 0o644
    made = time.gmtime(moment())[:6]
    with zipfile.ZipFile(Path(to) / f"{name}-{tag}.whl", "w") as archive:
        for path, (content, mode) in parts.items():
            entry = zipfile.ZipInfo(path, made)
            entry.compress_type = zipfile.ZIP_DEFLATED
            entry.external_attr = (0o100000 | mode) << 16
            archive.writestr(entry, content, compresslevel=9)
    return f"{name}-{tag}.whl"


def build_wheel(to, _settings=None, _metadata=None):
    """What pip asks for: the package, which looks for the library where the system keeps its
    own."""
    return write_wheel(to, "py3-none-any", sources())


def build_editable(to, _settings=None, _metadata=None):
    """What `pip install -e` asks for: a wheel that leads to this folder."""
    return write_wheel(to, "py3-none-any", {"bearoff.pth": (f"{FOLDER}\n".encode(), 0o644)})


def build_sdist(to, _settings=None):
    """What `python -m build --sdist` asks for: the sources, and what makes wheels of them."""
    name = f"bearoff-{field('version')}"
    parts = {"PKG-INFO": metadata().encode()}
    for file in ("pyproject.toml", "wheels.py"):
        parts[file] = (FOLDER / file).read_bytes()
    parts.update((path, content) for path, (content, _) in sources().items())
    told = io.BytesIO()
    with tarfile.open(fileobj=told, mode="w", format=tarfile.PAX_FORMAT) as archive:
        for path, content in parts.items():
            entry = tarfile.TarInfo(f"{name}/{path}")
            entry.size, entry.mtime, entry.mode = len(content), moment(), 0o644
            archive.addfile(entry, io.BytesIO(content))
    with open(Path(to) / f"{name}.tar.gz", "wb") as file:
        with gzip.GzipFile("", "wb", 9, file, moment()) as packed:
            packed.write(told.getvalue())
    return f"{name}.tar.gz"
