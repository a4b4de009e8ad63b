#!/bin/sh
# Runs the scanner with these words, in the folder that it is called from: the released program
# where it was made from the sources that lie here, else the one that is proved and built from them.
# `./yara --build` proves and builds in any case, and says whether the result is the released one.
top=${0%/*}
if [ -h "$0" ] || [ "$top" = "$0" ]; then
    top=$(dirname "$(readlink -f "$0")")
fi
pages=$top/release
program=$pages/yara-x86_64-linux
. "$pages/run"

help_or_version "$@"
if [ "${1-}" = --build ]; then
    exec "$pages/build"
fi
if ! why=$("$pages/fits"); then
    program=$top/crates/yara/out/yara
    "$pages/build" --because "$why" || exit
fi
run "$@"
