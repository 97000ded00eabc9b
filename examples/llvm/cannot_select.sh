#!/bin/sh
# Exits with 0 while llc of LLVM 14 ends on the module in "$1" because it has no instruction for the intrinsic of
# CRC-32 in a function without that feature. Any other error, as on a module that isn't valid, is no. No file is
# written; timeout ends an llc that hangs, and what the shell says of an llc that aborts isn't shown.
ulimit -c 0
exec 2>/dev/null
LC_ALL=C LLVM_DISABLE_SYMBOLIZATION=1 timeout 10 llc-14 -mtriple=x86_64-linux-gnu -o /dev/null "$1" 2>&1 |
    grep -q 'LLVM ERROR: Cannot select: intrinsic %llvm.x86.sse42.crc32'
