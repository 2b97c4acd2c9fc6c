#!/bin/bash
# Tries the bugs of planted/: planted.py says how.
exec python3 -B "$(dirname "${BASH_SOURCE[0]}")/planted.py" "$@"
