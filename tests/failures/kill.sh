#!/bin/bash
# Kills sessions of the program at random moments, or lets their files grow no further, and opens their book again: it
# has to be the one after a first part of what was sent, with all that was acknowledged and at most one command more.
#   tests/failures/kill.sh     KILLS (60): how many sessions, about one a second; SEED: of the first, by chance; PROGRAM: the
#                              program (build/braildesk)
set -eu
cd "$(dirname "$0")/../.."
. tests/built.sh python
PYTHONPATH=tests "$PYTHON" -B tests/failures/kill.py "$program" --kills "${KILLS:-60}" ${SEED:+--seed "$SEED"}
