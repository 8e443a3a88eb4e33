#!/bin/sh
# A running daemon answers on, whatever comes to it, and takes no memory for it.
. "$(dirname "$0")/common.sh"
serving_program
dev/fuzz --requests 1000 "$program"
