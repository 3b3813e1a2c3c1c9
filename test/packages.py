"""Debian's packages of other programs, which some tools use where they are there. No part of what is proved."""
import os
import shutil
import subprocess

PATIENCE = 300
QUIET = {"stdin": subprocess.DEVNULL, "stdout": subprocess.DEVNULL, "stderr": subprocess.DEVNULL}
# those that couldn't be installed; then no other one is tried, for each may take its time
failed = []


def install(package, purpose):
    """Whether the package was installed for this purpose. It is tried by root alone, and only where the environment has
    INSTALL_PACKAGES, as in the gate."""
    if failed or "INSTALL_PACKAGES" not in os.environ or os.geteuid() != 0 or not shutil.which("apt-get"):
        return False
    print(f"{purpose} (apt-get install {package})", flush=True)
    try:
        for words in (["update"], ["install", "-y", "--no-install-recommends", package]):
            subprocess.run(["apt-get", "-q", *words], check=True, timeout=PATIENCE, **QUIET)
    except (OSError, subprocess.SubprocessError):
        failed.append(package)
        return False
    return True
