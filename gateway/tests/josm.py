"""JOSM's own classes, without a display, through the gateway (josm_trial/Trial.java)."""

from __future__ import annotations

import os
import re
import subprocess
import tempfile

from behind import HERE, Gateway, Site
from serving import Wrong

JAR = "/usr/share/josm/josm.jar"


def run(program: str) -> str:
    with Site(program, notes=True) as gateway:
        return tried(gateway)


def tried(gateway: Gateway) -> str:
    with tempfile.TemporaryDirectory() as folder:
        source = os.path.join(HERE, "josm_trial", "Trial.java")
        subprocess.run(("javac", "-proc:none", "-nowarn", "-cp", JAR, "-d", folder, source), check=True, timeout=300, capture_output=True)
        words = ["-Djava.awt.headless=true", "-Dfile.encoding=UTF-8", f"-Djosm.home={folder}/home", "-cp", f"{JAR}:{folder}"]
        url = f"http://127.0.0.1:{gateway.port}/api"
        done = subprocess.run(("java", *words, "Trial", url), capture_output=True, text=True, timeout=300, check=False)
    lines = [line for line in done.stdout.splitlines() if line[:2] in ("+ ", "- ")]
    bad = [line for line in lines if line.startswith("- ")]
    if done.returncode or bad or not lines:
        raise Wrong("; ".join(bad) or done.stderr[-1500:])
    version = subprocess.run(("dpkg-query", "-W", "-f", "${Version}", "josm"), capture_output=True, text=True, check=False).stdout
    return f"JOSM r{(re.findall(r'svn([0-9]+)', version) or ['?'])[0]}: {len(lines)} trials of its own classes"
