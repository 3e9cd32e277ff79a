"""nginx as the trials run it: in the foreground, with a configuration and all files of its own in a folder."""

from __future__ import annotations

import os
import shutil

NGINX = shutil.which("nginx", path=os.environ.get("PATH", "") + ":/usr/sbin") or "nginx"
MAIN = """
worker_processes {processes};
daemon off;
pid {folder}/nginx.pid;
error_log {folder}/error.log;
events {{ worker_connections 1024; }}
http {{
    access_log off;
    client_body_temp_path {folder}/client;
    proxy_temp_path {folder}/proxy;
    fastcgi_temp_path {folder}/fastcgi;
    uwsgi_temp_path {folder}/uwsgi;
    scgi_temp_path {folder}/scgi;
    include {folder}/site.conf;
}}
"""


def words_of(folder: str) -> list[str]:
    """The command that runs it on the folder's main.conf."""
    return [NGINX, "-e", f"{folder}/error.log", "-c", f"{folder}/main.conf"]
