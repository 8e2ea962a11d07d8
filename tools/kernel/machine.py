"""The virtual machine: where its parts lie, and a boot that answers a list."""
import glob
import hashlib
import os
import subprocess
import sys
import time

import cpio

CACHE = os.environ.get("PERDOAZE_KERNEL") or os.path.expanduser("~/.cache/perdoaze-kernel")
HERE = os.path.dirname(os.path.realpath(__file__))
ROOT = f"{CACHE}/root"
GUEST = f"{CACHE}/guest"
MODULE = f"{CACHE}/module/pipelines.ko"
LIBRARIES = f"{ROOT}/usr/lib/x86_64-linux-gnu:{ROOT}/lib/x86_64-linux-gnu"
# in the order in which they are loaded; the generic C forms alone
MODULES = """virtio_ring virtio virtio_pci_legacy_dev virtio_pci_modern_dev virtio_pci virtio_console af_alg algif_hash
algif_skcipher algif_aead ecb ctr gf128mul ghash-generic gcm xts ccm cmac authenc cryptd pcrypt""".split()


class NotBooted(Exception):
    """The guest didn't answer its list to the end."""


def kernel():
    found = glob.glob(f"{ROOT}/boot/vmlinuz-*")
    return found[0] if found else ""


def release():
    return os.path.basename(kernel()).removeprefix("vmlinuz-")


def is_set_up():
    unpacked = os.path.exists(kernel()) and os.path.exists(f"{ROOT}/usr/bin/qemu-system-x86_64")
    return unpacked and is_made(GUEST, "guest") and is_made(MODULE, "module")


def is_made(made, folder):
    """Whether this was made of the sources as they are, which a sum beside it tells."""
    return os.path.exists(made) and os.path.exists(f"{made}.sum") and read(f"{made}.sum").decode() == sum_of(folder)


def sum_of(folder):
    sources = sorted(glob.glob(f"{HERE}/{folder}/*"))
    return hashlib.sha256(b"".join(os.path.basename(source).encode() + b"\0" + read(source) for source in sources)).hexdigest()


def read(path):
    with open(path, "rb") as file:
        return file.read()


def module_file(name):
    """A module by its file's name, in which hyphens and underscores are alike."""
    for path in glob.iglob(f"{ROOT}/lib/modules/{release()}/kernel/**/*.ko", recursive=True):
        if os.path.basename(path)[:-3].replace("-", "_") == name.replace("-", "_"):
            return path
    raise FileNotFoundError(name)


def initramfs(lines):
    """The guest's program, the modules in their order, and its list."""
    order = MODULES + ["pipelines"]
    files = [("modules", cpio.DIRECTORY), ("init", cpio.PROGRAM, read(GUEST))]
    files += [(f"modules/{name}.ko", cpio.FILE, read(module_file(name))) for name in MODULES]
    files += [("modules/pipelines.ko", cpio.FILE, read(MODULE)), ("modules/order", cpio.FILE, "\n".join(order).encode())]
    files.append(("list", cpio.FILE, ("\n".join(lines) + "\n").encode()))
    return cpio.archive(files)


def command(work, processors):
    """No accelerator, no network, no screen."""
    # with the kernel's own self tests 6.1 refuses cryptd over an AEAD, and a boot takes minutes; and where the host is
    # busy, a timer that comes late isn't one that doesn't come
    words = "console=ttyS0 quiet panic=-1 no_timer_check cryptomgr.notests=1"
    qemu = [f"{ROOT}/usr/bin/qemu-system-x86_64", "-L", f"{ROOT}/usr/share/qemu", "-L", f"{ROOT}/usr/share/seabios"]
    qemu += ["-nodefaults", "-no-user-config", "-display", "none", "-no-reboot"]
    qemu += ["-accel", "tcg", "-m", "768", "-smp", str(processors), "-serial", f"file:{work}/console"]
    qemu += ["-device", "virtio-serial-pci", "-chardev", f"file,id=answers,path={work}/answers"]
    qemu += ["-device", "virtserialport,chardev=answers"]
    return qemu + ["-kernel", kernel(), "-initrd", f"{work}/initramfs", "-append", words]


def boot(lines, processors, seconds=1800):
    """The guest's answers, one for each line of its list."""
    work = f"{CACHE}/boot.{os.getpid()}"
    os.makedirs(work, exist_ok=True)
    with open(f"{work}/initramfs", "wb") as file:
        file.write(initramfs(lines))
    begun = time.monotonic()
    environment = {**os.environ, "LD_LIBRARY_PATH": LIBRARIES}
    try:
        subprocess.run(command(work, processors), env=environment, stdin=subprocess.DEVNULL, timeout=seconds, check=True)
    except (subprocess.TimeoutExpired, subprocess.CalledProcessError) as fault:
        raise NotBooted(f"{fault}; see {work}/console") from None
    answers = answers_of(work, len(lines))
    for name in ("initramfs", "answers", "console"):
        os.unlink(f"{work}/{name}")
    os.rmdir(work)
    load = os.getloadavg()[0]
    told = f"{len(lines)} lines in {time.monotonic() - begun:.0f} s (load {load:.1f})"
    print(f"booted {release()} on {processors}: {told}", file=sys.stderr)
    return answers


def answers_of(work, count):
    lines = read(f"{work}/answers").decode().split("\n")
    if len(lines) != count + 2 or lines[count:] != ["end", ""]:
        raise NotBooted(f"{len(lines) - 2} of {count} lines were answered; see {work}/console and {work}/answers")
    return [line.removeprefix(f"{number} ") for number, line in enumerate(lines[:count], 1)]
