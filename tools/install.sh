#!/bin/sh
# install.sh PACKAGE..: installs those of these Debian packages that are missing. Says nothing when all goes well.
set -eu
missing=
for p in "$@"; do
    dpkg -s "$p" >/dev/null 2>&1 || missing="$missing $p"
done
[ -n "$missing" ] || exit 0

# One at a time: two of our scripts may ask at once.
exec 9>"${TMPDIR:-/tmp}/hypergroup-install"
flock 9
log=$(mktemp)
trap 'rm -f "$log"' EXIT
export DEBIAN_FRONTEND=noninteractive
case $missing in *:amd64*) dpkg --add-architecture amd64 ;; esac
install="apt-get install -y -qq --no-install-recommends$missing"
# The package lists may be absent, old or without the architecture: fetch them and try again.
if ! $install >"$log" 2>&1 && ! { apt-get update -qq && $install; } >"$log" 2>&1; then
    cat "$log" >&2
    exit 1
fi
