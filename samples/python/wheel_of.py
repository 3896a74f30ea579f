"""Makes the wheel of the folder thorin/ for pip, by the standard library alone, so that an install needs no network."""
import base64
import hashlib
import re
import zipfile
from pathlib import Path

HERE = Path(__file__).resolve().parent


def build_wheel(wheel_directory, config_settings=None, metadata_directory=None):
    said = dict(re.findall(r'^(name|version|description|requires-python) = "(.*)"$', (HERE / "pyproject.toml").read_text(), re.M))
    name, about = f"thorin-{said['version']}", f"thorin-{said['version']}.dist-info"
    files = {f"thorin/{it.name}": it.read_bytes() for it in sorted((HERE / "thorin").iterdir()) if it.is_file()}
    files[f"{about}/METADATA"] = (
        f"Metadata-Version: 2.1\nName: thorin\nVersion: {said['version']}\nSummary: {said['description']}\nLicense: MIT\n"
        f"Requires-Python: {said['requires-python']}\nDescription-Content-Type: text/markdown\n\n"
        f"{(HERE / 'README.md').read_text()}").encode()
    files[f"{about}/WHEEL"] = b"Wheel-Version: 1.0\nGenerator: thorin\nRoot-Is-Purelib: true\nTag: py3-none-any\n"
    record = ""
    for path, bytes_ in files.items():
        sum_ = base64.urlsafe_b64encode(hashlib.sha256(bytes_).digest()).rstrip(b"=").decode()
        record += f"{path},sha256={sum_},{len(bytes_)}\n"
    files[f"{about}/RECORD"] = (record + f"{about}/RECORD,,\n").encode()
    wheel = f"{name}-py3-none-any.whl"
    with zipfile.ZipFile(Path(wheel_directory) / wheel, "w", zipfile.ZIP_DEFLATED) as to:
        for path, bytes_ in files.items():
            to.writestr(path, bytes_)
    return wheel
