"""The programs boltraven and boltraven_replay, as crates/NAME/out has them, under an emulator where the processor isn't x86-64."""
import os
import platform
import shutil
import subprocess

from jobtool.wrong import Wrong

ROOT = os.path.dirname(os.path.dirname(os.path.dirname(os.path.abspath(__file__))))


def command(name="boltraven"):
    program = os.path.join(ROOT, "crates", name, "out", name)
    if not os.path.exists(program):
        raise Wrong("there is no program yet: `tools/program %s` builds it" % name)
    if platform.machine() == "x86_64":
        return [program]
    if not shutil.which("qemu-x86_64"):
        raise Wrong("the program is for x86-64, and there is no emulator: bindings/setup installs one")
    return ["qemu-x86_64", "-L", "/usr/x86_64-linux-gnu", program]


def listing_of(file, name="boltraven"):
    """What the program of that name writes of a job file, or of a recording."""
    done = subprocess.run(command(name), input=file, capture_output=True)
    if done.returncode or done.stderr or not done.stdout:
        why = done.stderr.decode("utf-8", "replace").strip() or "it wrote nothing"
        hint = " (bindings/setup installs what the emulator needs)" if len(command(name)) > 1 and done.returncode else ""
        raise Wrong("the program ended with status %d: %s%s" % (done.returncode, why, hint))
    return done.stdout.decode("ascii")
