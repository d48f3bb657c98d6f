"""Builds a kernel and its guest from Debian's packages."""
import os
from pathlib import Path
import shutil
import subprocess
import tempfile
import time

from .patching import GUEST, patch
from .versions import NotBuilt

INSTALLED = Path("/usr/src")
# What a build calls, each with the Debian package that has it.
NEEDED = {
    "apt-get": "apt", "dpkg-deb": "dpkg", "tar": "tar", "xz": "xz-utils", "gcc": "gcc", "make": "make", "flex": "flex",
    "bison": "bison", "bc": "bc", "cpio": "cpio", "qemu-system-x86_64": "qemu-system-x86",
}
NEEDED_HEADERS = {"/usr/include/gelf.h": "libelf-dev"}
# What is asked for on top of `make allnoconfig`.
OPTIONS = (
    "EXPERT", "64BIT", "SMP", "ACPI", "PRINTK", "TTY", "SERIAL_8250", "SERIAL_8250_CONSOLE", "BLK_DEV_INITRD", "BINFMT_ELF", "PROC_FS",
    "PROC_SYSCTL", "SYSFS", "TMPFS", "SHMEM", "MULTIUSER", "NAMESPACES", "PID_NS", "FUTEX", "POSIX_TIMERS", "HIGH_RES_TIMERS",
    "X86_CPU_RESCTRL", "UNWINDER_GUESS",
)
MOST_CPUS = 64
COST = "about 10 processor minutes, 150 MB to fetch and 2 GB while it lasts; 3 MB stay"


def missing_packages():
    """The Debian packages that a build needs and that are not here."""
    missing = {package for command, package in NEEDED.items() if not shutil.which(command)}
    return sorted(missing | {package for header, package in NEEDED_HEADERS.items() if not os.path.exists(header)})


def build(built, jobs, say):
    """Builds what is named by a `Built`, with this many compilers at a time. The sources are removed afterwards."""
    if missing := missing_packages():
        raise NotBuilt(f"a build needs packages that are not here: apt-get install {' '.join(missing)}")
    say(f"building Linux {built.version.name} in {built.folder}: {COST}")
    began = time.monotonic()
    built.folder.mkdir(parents=True, exist_ok=True)
    with tempfile.TemporaryDirectory(prefix="build-", dir=built.folder) as name:
        tree = unpack(built.version, Path(name))
        patch(tree)
        configure(tree, built.version)
        run("make", "-s", f"-j{jobs}", "bzImage", cwd=tree)
        run("gcc", "-O1", "-static", "-o", name + "/init", GUEST / "init.c")
        shutil.copy(tree / "arch/x86/boot/bzImage", name + "/kernel")
        os.replace(name + "/init", built.init)
        os.replace(name + "/kernel", built.kernel)
    say(f"built in {(time.monotonic() - began) / 60:.1f} minutes")


def unpack(version, folder):
    """Unpacks the sources: those of the package where it is installed, else of one that is fetched, for which nobody has to be root."""
    archive = INSTALLED / f"{version.package}.tar.xz"
    if not archive.exists():
        run("apt-get", "-qq", "-o", "APT::Sandbox::User=root", "download", version.package, cwd=folder)
        (package,) = folder.glob("*.deb")
        run("dpkg-deb", "-x", package, folder / "package")
        package.unlink()
        archive = folder / "package/usr/src" / archive.name
    run("tar", "xf", archive, cwd=folder)
    shutil.rmtree(folder / "package", ignore_errors=True)
    return folder / version.package


def configure(tree, version):
    """The smallest kernel that boots here and has resctrl."""
    wanted = [f"CONFIG_{option}=y" for option in OPTIONS] + [f"CONFIG_NR_CPUS={MOST_CPUS}", version.large_ids]
    (tree / "wanted.config").write_text("\n".join(wanted) + "\n")
    run("make", "-s", "KCONFIG_ALLCONFIG=wanted.config", "allnoconfig", cwd=tree, stderr=subprocess.DEVNULL)
    taken = (tree / ".config").read_text().splitlines()
    if lost := [option for option in wanted if option not in taken]:
        raise NotBuilt(f"the kernel's configuration does not take {' '.join(lost)}")


def run(*words, **options):
    """Runs a command to its end."""
    words = [str(word) for word in words]
    if subprocess.run(words, check=False, **options).returncode != 0:
        raise NotBuilt(f"`{' '.join(words[:4])}` failed")
