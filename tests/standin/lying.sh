#!/bin/sh
# The program with the library LYING preloaded to it, behind what is preloaded already.
LD_PRELOAD="$LYING${LD_PRELOAD:+:$LD_PRELOAD}" exec "$TRUE_PROGRAM" "$@"
