#!/bin/sh
# Prints a checksum over all that the program is built from: crates.txt, and the .rt and .antt files of the crates.
set -eu
cd "$(dirname "$(readlink -f "$0")")/.."
{
  echo crates.txt
  find crates/*/src crates/*/specs crates/*/proofs -name '*.rt' -o -name '*.antt'
} 2>/dev/null | LC_ALL=C sort | tr '\n' '\0' | xargs -0 sha256sum | sha256sum | cut -d ' ' -f 1
