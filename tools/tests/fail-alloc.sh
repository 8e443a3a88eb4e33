#!/bin/sh
# Where memory is refused, the program ends well or for want of memory, with a beginning of its output.
. "$(dirname "$0")/common.sh"
serving_program
dev/fail-alloc "$program"
