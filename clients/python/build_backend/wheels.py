"""Makes the wheel of this package for pip (PEP 517), with the standard library alone, so that an installation needs no network."""
import base64
import hashlib
import re
import zipfile
from pathlib import Path

TOP = Path(__file__).resolve().parent.parent
FIELDS = dict(re.findall(r'^([\w-]+) = "(.*)"$', (TOP / "pyproject.toml").read_text(encoding="utf-8"), re.M))
NAME, VERSION = FIELDS["name"].replace("-", "_"), FIELDS["version"]
ABOUT = f"{NAME}-{VERSION}.dist-info"
WHEEL = "Wheel-Version: 1.0\nGenerator: path_server\nRoot-Is-Purelib: true\nTag: py3-none-any\n"


def metadata():
    head = f"Metadata-Version: 2.1\nName: {FIELDS['name']}\nVersion: {VERSION}\nSummary: {FIELDS['description']}\nLicense: MIT\n"
    head += f"Requires-Python: {FIELDS['requires-python']}\nDescription-Content-Type: text/markdown\n\n"
    return head + (TOP / "README.md").read_text(encoding="utf-8")


def build_wheel(wheel_directory, config_settings=None, metadata_directory=None):
    files = {f"{NAME}/{it.name}": it.read_bytes() for it in sorted((TOP / NAME).iterdir()) if it.suffix in (".py", ".typed")}
    files[f"{ABOUT}/METADATA"] = metadata().encode()
    files[f"{ABOUT}/WHEEL"] = WHEEL.encode()
    record = "".join(f"{name},sha256={digest(data)},{len(data)}\n" for name, data in files.items())
    files[f"{ABOUT}/RECORD"] = f"{record}{ABOUT}/RECORD,,\n".encode()
    made = f"{NAME}-{VERSION}-py3-none-any.whl"
    with zipfile.ZipFile(Path(wheel_directory) / made, "w", zipfile.ZIP_DEFLATED) as wheel:
        for name, data in files.items():
            wheel.writestr(zipfile.ZipInfo(name, (1980, 1, 1, 0, 0, 0)), data)
    return made


def digest(data):
    return base64.urlsafe_b64encode(hashlib.sha256(data).digest()).rstrip(b"=").decode()
