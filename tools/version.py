"""version.py: which version of the tools this is, and from what it was made."""
import os
import platform

VERSION = "1.0"
BUILT = os.path.join(os.path.dirname(os.path.abspath(__file__)), "BUILT")  # package.py writes it: commit, and sha256 of the program


def version_text(tool):
    """What --version prints."""
    built = ""
    if os.path.exists(BUILT):
        with open(BUILT) as text:
            built = "; " + ", ".join(line.strip() for line in text)
    return "%s of historian %s (Python %s%s)" % (tool, VERSION, platform.python_version(), built)
