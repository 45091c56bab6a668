"""What the scripts that write vectors share: the way to the oracle, numbers and frames, and files that are written or compared."""

import sys
from pathlib import Path

ROOT = Path(__file__).resolve().parents[2]
VECTORS = ROOT / "tools/vectors"
# Where build and vectors are.
sys.path.insert(0, str(ROOT / "tools/oracle"))

import build  # noqa: E402


def utf8(text):
    try:
        return text.decode()
    except UnicodeDecodeError:
        return None


def number(width, *values):
    return b"".join(value.to_bytes(width, "big") for value in values)


def frame(kind, body=b""):
    return f"{kind:02x}{len(body):04x}{body.hex()}\n"


def checks(arguments, text):
    """Whether files are compared, and none is written. A script that is asked for anything else ends with its own text."""
    if arguments not in ([], ["--check"]):
        sys.exit(text)
    return arguments == ["--check"]


def has_oracle():
    return (build.TARGET / "ours" / "oracle").is_file()


def ask_oracle(script, check):
    """Whether there is an oracle to ask. Without one, a script can only compare."""
    if not has_oracle() and not check:
        sys.exit(f"{script}: there is no target/oracle/ours/oracle, and the answers are the Rust's: see tools/oracle/README.md")
    return has_oracle()


def store(script, files, check):
    """Writes the files, or fails where one in the tree is another."""
    for path, text in files.items():
        if not check:
            path.write_bytes(text.encode())
        elif path.read_bytes() != text.encode():
            sys.exit(f"{script}: {path.relative_to(ROOT)} is not what tools/vectors/{script}.py writes")
