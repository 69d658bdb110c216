#!/bin/sh
# Compares the built server with what a user would compare it with, in one run: benches/serve.sh [PROGRAM]. It needs
# python3, a C compiler, ab (Debian's apache2-utils), nginx (nginx-light), and the ports 18600 to 18620. It takes two or
# three minutes. PROGRAM is crates/lra_node/out/lra_node, which ./coordinator builds. The figures depend on the machine
# and on its other work: the ratios are what counts.
set -eu
top=$(cd "$(dirname "$0")/.." && pwd)
for tool in python3 cc ab nginx; do
    command -v "$tool" >/dev/null || { echo "serve.sh: no $tool" >&2; exit 1; }
done
exec python3 "$top/benches/serve.py" "${1:-$top/crates/lra_node/out/lra_node}"
