"""Results that are kept from call to call, as small files of JSON in a folder of the script's: what TTA_BUILD names, else one of the checkout,
and where that cannot be written, one of the user's cache."""
import hashlib
import json
import os

import formats

NAME = "synthesis"


def folder():
    """The folder, or None where there is no place for it."""
    if os.environ.get("TTA_BUILD"):
        return os.path.join(os.path.abspath(os.environ["TTA_BUILD"]), f"tta-{NAME}")
    out = os.path.join(formats.TOP, "out")
    if os.access(out if os.path.exists(out) else formats.TOP, os.W_OK):
        return os.path.join(out, NAME)
    home = os.environ.get("XDG_CACHE_HOME") or os.environ.get("HOME")
    if not home:
        return None
    return os.path.join(home if os.environ.get("XDG_CACHE_HOME") else os.path.join(home, ".cache"), f"tta-{NAME}")


def path_of(parts):
    """Where the result of some parts, which are bytes, stands, or None."""
    digest = hashlib.sha256()
    for part in parts:
        digest.update(len(part).to_bytes(8, "big") + part)
    return folder() and os.path.join(folder(), f"{digest.hexdigest()}.json")


def found(path):
    """What is kept at a path, or None. A file that cannot be read is as none."""
    try:
        with open(path or "", encoding="utf-8") as f:
            return json.load(f)
    except (OSError, ValueError):
        return None


def keep(path, value):
    """Keeps a value, whole or not at all; where it cannot be written, it is made anew the next time."""
    if not path:
        return
    try:
        os.makedirs(os.path.dirname(path), exist_ok=True)
        part = f"{path}.{os.getpid()}"
        with open(part, "w", encoding="utf-8") as f:
            json.dump(value, f)
        os.replace(part, path)
    except OSError:
        pass
