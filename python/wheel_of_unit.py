"""Makes the wheel for `pip install ./python` (PEP 517), with the shared library that was built of the sources beside it, or
that release/ has of them; and that for `pip install -e ./python` (PEP 660), by which Python finds the package here. It wants
neither a compiler nor another package, and so no network.

    python/wheel_of_unit.py FOLDER     puts beside a package that `make install` put into the folder what tells pip and pytest of it"""
import base64
import hashlib
import subprocess
import sys
import tomllib
import zipfile
from pathlib import Path
from typing import Any

HERE = Path(__file__).resolve().parent
LIBRARY = "libuds_unit.so"
TAG = "py3-none-linux_x86_64"
FIRST = (1980, 1, 1, 0, 0, 0)


def project() -> dict[str, Any]:
    with open(HERE / "pyproject.toml", "rb") as it:
        return tomllib.load(it)["project"]


def library() -> Path:
    """The shared library: beside the package's files, else where tools/release.sh tells. OSError where there is none."""
    beside = HERE / "uds_unit" / LIBRARY
    if beside.exists():
        return beside
    told = subprocess.run([HERE.parent / "tools/release.sh", "--files"], capture_output=True, text=True)
    if told.returncode != 0:
        raise FileNotFoundError(f"there is no {LIBRARY} here: {told.stderr.strip()}")
    return HERE.parent / told.stdout.split()[-1]


def metadata(about: dict[str, Any]) -> str:
    lines = ["Metadata-Version: 2.1", f"Name: {about['name']}", f"Version: {about['version']}", f"Summary: {about['description']}"]
    lines += [f"Classifier: {it}" for it in about["classifiers"]] + [f"Requires-Python: {about['requires-python']}"]
    for extra, wanted in about["optional-dependencies"].items():
        lines += [f"Provides-Extra: {extra}", *(f'Requires-Dist: {it} ; extra == "{extra}"' for it in wanted)]
    return "\n".join(lines) + "\n"


def entry_points(about: dict[str, Any]) -> str:
    groups = {"console_scripts": about["scripts"], **about["entry-points"]}
    return "\n".join("\n".join([f"[{group}]", *(f"{name} = {at}" for name, at in points.items()), ""]) for group, points in groups.items())


def info(about: dict[str, Any]) -> str:
    """The folder of what tells of the package."""
    return f"{about['name']}-{about['version']}.dist-info"


def package() -> dict[str, bytes]:
    """The package's files, with the library, by their paths in the wheel."""
    sources = [it for it in sorted((HERE / "uds_unit").iterdir()) if it.suffix == ".py" or it.name == "py.typed"]
    return {**{f"uds_unit/{it.name}": it.read_bytes() for it in sources}, f"uds_unit/{LIBRARY}": library().read_bytes()}


def write_wheel(folder: str, files: dict[str, bytes]) -> str:
    """Writes a wheel with these files, and what tells of the package; its name."""
    about = project()
    told = info(about)
    has = {
        **files,
        f"{told}/METADATA": metadata(about).encode(),
        f"{told}/WHEEL": f"Wheel-Version: 1.0\nGenerator: wheel_of_unit\nRoot-Is-Purelib: false\nTag: {TAG}\n".encode(),
        f"{told}/entry_points.txt": entry_points(about).encode(),
    }
    record = f"{told}/RECORD"
    sums = {path: base64.urlsafe_b64encode(hashlib.sha256(text).digest()).decode().rstrip("=") for path, text in has.items()}
    lines = [f"{path},sha256={sums[path]},{len(text)}\n" for path, text in has.items()] + [f"{record},,\n"]
    name = f"{about['name']}-{about['version']}-{TAG}.whl"
    with zipfile.ZipFile(Path(folder) / name, "w", zipfile.ZIP_DEFLATED) as wheel:
        for path, text in {**has, record: "".join(lines).encode()}.items():
            wheel.writestr(zipfile.ZipInfo(path, FIRST), text, zipfile.ZIP_DEFLATED)
    return name


def build_wheel(wheel_directory: str, config_settings: Any = None, metadata_directory: Any = None) -> str:
    return write_wheel(wheel_directory, package())


def build_editable(wheel_directory: str, config_settings: Any = None, metadata_directory: Any = None) -> str:
    return write_wheel(wheel_directory, {"uds_unit.pth": f"{HERE}\n".encode()})


def build_sdist(sdist_directory: str, config_settings: Any = None) -> str:
    raise NotImplementedError("the sources are the repository")


def tell_of_package(folder: str) -> None:
    about = project()
    at = Path(folder) / info(about)
    at.mkdir(exist_ok=True)
    # (others read it, too, whatever the umask)
    at.chmod(0o755)
    for name, text in {"METADATA": metadata(about), "entry_points.txt": entry_points(about), "INSTALLER": "make\n"}.items():
        (at / name).write_text(text)
        (at / name).chmod(0o644)


if __name__ == "__main__":
    tell_of_package(sys.argv[1])
