"""Engines from Debian's packages: what is there, and what has to be installed."""
import os
import subprocess
from pathlib import Path

POLICY = Path("/usr/sbin/policy-rc.d")  # what a package asks whether it may start its daemon: 101 is no


def version_of(package):
    """The version of an installed package, or None."""
    asked = subprocess.run(["dpkg-query", "-W", "-f", "${db:Status-Status} ${Version}", package], capture_output=True, text=True, check=False)
    state, _, version = asked.stdout.partition(" ")
    return version if state == "installed" else None


def missing(packages):
    return [it for it in packages if version_of(it) is None]


def apt(*words, seconds):
    """Whether apt-get does this."""
    known = {**os.environ, "DEBIAN_FRONTEND": "noninteractive"}
    try:
        done = subprocess.run(["apt-get", "-q", "-y", "-o", "DPkg::Lock::Timeout=120", *words], env=known, capture_output=True, text=True,
                              timeout=seconds, check=False)
    except (OSError, subprocess.TimeoutExpired) as fault:
        print(f"live: apt-get {words[0]}: {fault}")
        return False
    if done.returncode != 0:
        print(f"live: apt-get {words[0]} failed: {done.stderr.strip()[-500:]}")
    return done.returncode == 0


def update():
    """Whether the lists of packages can be had; by itself apt-get takes old ones instead."""
    return apt("update", "--error-on=any", seconds=120)


def install(packages):
    """Installs the packages, none of whose daemons starts. Whether it could."""
    is_ours = not POLICY.exists()
    if is_ours:
        POLICY.write_text("#!/bin/sh\nexit 101\n", encoding="utf-8")
        POLICY.chmod(0o755)
    try:
        return apt("install", "--no-install-recommends", *packages, seconds=240)
    finally:
        if is_ours:
            POLICY.unlink()
