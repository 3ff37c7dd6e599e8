"""Makes the wheel of a release: wheel.py PYTHON VERSION PROGRAM LIBRARY LICENCES DIR writes the
package of PYTHON, with the library in it, the program as its script and the file LICENCES, into DIR,
for any Python 3 on Linux and x86-64. Its times are SOURCE_DATE_EPOCH, so the same files give the
same bytes."""
import sys
from pathlib import Path

python, version, program, library, licences, to = sys.argv[1:]
sys.dont_write_bytecode = True
sys.path.insert(0, python)
from wheels import field, sources, write_wheel  # noqa: E402

if field("version") != version:
    sys.exit(f"wheel: python/pyproject.toml is not of version {version}")
if any(b"BEAROFF_UNPROVED" in Path(file).read_bytes() for file in (program, library)):
    sys.exit("wheel: what tools/unproved made is not proved")
parts = sources()
parts["bearoff/libbearoff.so"] = Path(library).read_bytes(), 0o755
parts[f"bearoff-{version}.data/scripts/bearoff"] = Path(program).read_bytes(), 0o755
place = f"bearoff-{version}.dist-info/licenses/{Path(licences).name}"
parts[place] = Path(licences).read_bytes(), 0o644
write_wheel(to, "py3-none-manylinux_2_17_x86_64.manylinux2014_x86_64", parts)
