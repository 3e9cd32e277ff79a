"""What the gateway has and this program needs too. Both lie beside each other, in the repository and where they are installed."""

from __future__ import annotations

import os
import sys

sys.path.append(os.path.join(os.path.dirname(os.path.dirname(os.path.abspath(__file__))), "gateway"))

from osm_gateway import folders
from osm_gateway.degrees import degrees_of
from osm_gateway.folders import sync_folder
from osm_gateway.rows import KINDS
from osm_gateway.xml_texts import Texts

__all__ = ["KINDS", "Texts", "degrees_of", "folders", "sync_folder"]
