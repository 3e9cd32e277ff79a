"""OSM's API 0.6 as its tools know it, in XML and in JSON of degrees, in front of a server of JSON in whole units of 1e-7 degrees."""
