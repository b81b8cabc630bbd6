#!/usr/bin/env bash
# How fast do pipelines run? See pipelines.py, which this runs.
exec python3 "$(dirname "$0")/pipelines.py" "$@"
