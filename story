#!/usr/bin/env bash
# The engine's story: the fault that Flytewood was built for, played on the kernel. --quiet prints the verdict only.
set -euo pipefail
cd "$(dirname "$0")"
. hosts/c/machine.bash

need_kit
.ci/install story >&2
need_archive
mkdir -p target/c
compile target/c/story -O2 hosts/c/story/*.c
run target/c/story "$@"
