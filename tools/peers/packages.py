"""Which other programs a part asks, and Debian's packages that have them."""
import functools
import os
import shutil
import subprocess
import sys

PACKAGE_OF = {"openssl": "openssl", "gnutls-cli": "gnutls-bin", "qemu-img": "qemu-utils", "scapy": "python3-scapy"}


@functools.cache
def python_with_scapy():
    """An interpreter that can import scapy's ESP, or None: Debian's package serves Debian's own python3 alone."""
    for python in dict.fromkeys([sys.executable, "/usr/bin/python3"]):
        if python and os.access(python, os.X_OK):
            trial = subprocess.run([python, "-c", "from scapy.layers import ipsec; ipsec.CRYPT_ALGOS['AES-CCM']"], capture_output=True)
            if trial.returncode == 0:
                return python
    return None


def is_there(program):
    return (python_with_scapy() if program == "scapy" else shutil.which(program)) is not None


def missing(programs):
    """The packages of those programs that aren't there."""
    return sorted({PACKAGE_OF[program] for program in programs if not is_there(program)})
