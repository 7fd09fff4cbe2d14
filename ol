#!/usr/bin/env bash
# Runs `ol` with the words given, from any folder: the program that `./prove` made, or an unproved one, which says so (scripts/start).
exec "$(dirname "$(readlink -f "${BASH_SOURCE[0]}")")/scripts/start" ol ol ./prove "$@"
