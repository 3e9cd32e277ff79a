"""What scripts need besides Python's own library."""

from __future__ import annotations

import importlib.util
import os
import sys

PACKAGES = {
    "PIL": "python3-pil",
    "jsonschema": "python3-jsonschema",
    "matplotlib": "python3-matplotlib",
    "osmium": "python3-pyosmium",
    "prometheus_client": "python3-prometheus-client",
    "psycopg2": "python3-psycopg2",
    "redis": "python3-redis",
    "tqdm": "python3-tqdm",
    "yaml": "python3-yaml",
}
"""The packages of Debian that have these modules."""


def need(*modules: str) -> None:
    """Ends with one line where modules are missing. It stands before they are imported."""
    lacking = [PACKAGES[it] for it in modules if importlib.util.find_spec(it) is None]
    if lacking:
        words = " ".join(lacking)
        sys.exit(f"{os.path.basename(sys.argv[0])} needs {words}, for {sys.executable}: apt-get install {words}")
