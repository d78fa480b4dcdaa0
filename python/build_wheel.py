"""Builds the wheel (PEP 517 and 660): the package, and the shared library in it.

It needs Python alone; setuptools builds a wheel only where the package `wheel` is installed too. The same sources and the same library
make the same bytes. The library is what BTWORLD_LIBRARY names, else that of dist/ if it is of the sources that stand here, else what
`make -C examples` has built, else the system's; the wheel has its version."""
import base64
import ctypes
import hashlib
import os
import subprocess
import sysconfig
import zipfile
from pathlib import Path

HERE = Path(__file__).resolve().parent
FILE = "libbtworld.so.2"
FOLDERS = [HERE.parent / "examples", "/usr/local/lib", "/usr/lib", f"/usr/lib/{sysconfig.get_config_var('MULTIARCH') or ''}"]
METADATA = """\
Metadata-Version: 2.1
Name: btworld
Version: {version}
Summary: A deterministic grid world of agents with behaviour trees: games, learning environments, sweeps
Requires-Python: >=3.8
Provides-Extra: learn
Requires-Dist: numpy; extra == "learn"
Requires-Dist: gymnasium>=1.0; extra == "learn"
Requires-Dist: pettingzoo>=1.23; extra == "learn"
Provides-Extra: cluster
Requires-Dist: distributed; extra == "cluster"
Description-Content-Type: text/markdown

{readme}"""
WHEEL = "Wheel-Version: 1.0\nGenerator: build_wheel.py\nRoot-Is-Purelib: false\nTag: {tag}\n"
ENTRY_POINTS = "[console_scripts]\nbtworld-sweep = btworld.sweep.command:main\n"


def library():
    """Returns the path of the library that goes into the wheel."""
    named = os.environ.get("BTWORLD_LIBRARY")
    places = [Path(named)] if named else [*in_dist(), *(Path(it) / FILE for it in FOLDERS)]
    found = next((it for it in places if it.exists()), None)
    if not found:
        raise SystemExit(f"no {FILE} found: set BTWORLD_LIBRARY to its path, or build it with `make -C examples`")
    return found


def in_dist():
    """Returns the library of dist/, if that is of the sources that stand here."""
    script = HERE.parent / "scripts/programs/in_dist.sh"
    if not script.exists():
        return []
    told = subprocess.run([str(script), FILE], stdout=subprocess.PIPE)
    return [Path(told.stdout.decode().strip())] if told.returncode == 0 else []


def version():
    number = ctypes.CDLL(str(library())).btworld_version()
    return f"{number // 10000}.{number // 100 % 100}.{number % 100}"


def write(folder, files):
    """Writes a wheel of these files, by their names in it, and returns its name."""
    tag = f"py3-none-{sysconfig.get_platform().replace('-', '_').replace('.', '_')}"
    name, info = f"btworld-{version()}-{tag}.whl", f"btworld-{version()}.dist-info"
    about = {
        "METADATA": METADATA.format(version=version(), readme=(HERE / "README.md").read_text()),
        "WHEEL": WHEEL.format(tag=tag),
        "entry_points.txt": ENTRY_POINTS,
    }
    files = {**files, **{f"{info}/{it}": text.encode() for it, text in about.items()}}
    record = ""
    for it, data in files.items():
        digest = base64.urlsafe_b64encode(hashlib.sha256(data).digest()).rstrip(b"=").decode()
        record += f"{it},sha256={digest},{len(data)}\n"
    files[f"{info}/RECORD"] = f"{record}{info}/RECORD,,\n".encode()
    with zipfile.ZipFile(Path(folder) / name, "w", zipfile.ZIP_DEFLATED) as wheel:
        for it, data in files.items():
            entry = zipfile.ZipInfo(it, (1980, 1, 1, 0, 0, 0))
            entry.external_attr, entry.compress_type = (0o100755 if ".so" in it else 0o100644) << 16, zipfile.ZIP_DEFLATED
            wheel.writestr(entry, data)
    return name


def build_wheel(wheel_directory, config_settings=None, metadata_directory=None):
    source = HERE / "src"
    kept = sorted(it for it in source.rglob("*") if it.suffix in (".py", ".html") or it.name == "py.typed")
    files = {it.relative_to(source).as_posix(): it.read_bytes() for it in kept}
    return write(wheel_directory, {**files, f"btworld/{FILE}": library().read_bytes()})


def build_editable(wheel_directory, config_settings=None, metadata_directory=None):
    """What is imported are the sources here, with the library that this checkout has."""
    return write(wheel_directory, {"btworld.pth": f"{HERE / 'src'}\n".encode()})


def get_requires_for_build_wheel(config_settings=None):
    return []


get_requires_for_build_editable = get_requires_for_build_wheel


def build_sdist(sdist_directory, config_settings=None):
    raise SystemExit("there is no source archive: the library comes of a proof")
