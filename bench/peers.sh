#!/usr/bin/env bash
# Installs what bench/report.py compares path_server with and draws its plots with, from Debian: bench/peers.sh. What cannot be installed is said, and
# the exit status is 1 then; the report leaves it out.
set -u
declare -A packages=([redis-server]=redis-server [pgbench]=postgresql [jq]=jq [gojq]=gojq [sqlite3]=sqlite3 [cc]=gcc [g++]=g++ [/usr/bin/time]=time
    [/usr/include/simdjson.h]=libsimdjson-dev [/usr/lib/python3/dist-packages/matplotlib]=python3-matplotlib)

is_here() {
    case $1 in
    /*) [ -e "$1" ] ;;
    *) command -v "$1" >/dev/null ;;
    esac
}

wanted=()
for it in "${!packages[@]}"; do
    is_here "$it" || wanted+=("${packages[$it]}")
done
if [ ${#wanted[@]} -gt 0 ]; then
    apt-get update -q >&2
    for it in "${wanted[@]}"; do
        DEBIAN_FRONTEND=noninteractive apt-get install -q -y --no-install-recommends "$it" >&2
    done
fi
status=0
for it in "${!packages[@]}"; do
    if ! is_here "$it"; then
        echo "bench/peers.sh: not here: $it (${packages[$it]})" >&2
        status=1
    fi
done
exit $status
