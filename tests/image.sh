#!/bin/sh
# Holds what image_places prints of card images of arbitrary bytes to a reading of the bytes by another program.
# Run it after tools/programs image_places.
set -eu
cd "$(dirname "$0")/.."
exec python3 tests/image.py target/bin/image_places
