#!/bin/sh
# Installs calspan and libicu_calendar from this archive: ./install.sh PREFIX. The default is /usr/local; nothing outside of it is changed.
set -eu
[ $# -le 1 ] || { echo 'usage: ./install.sh [PREFIX]' >&2; exit 2; }
prefix=${1:-/usr/local}
mkdir -p "$prefix"
prefix=$(cd "$prefix" && pwd)
cd "$(dirname "$0")"
cp -R bin lib include share "$prefix/"
echo "installed in $prefix; 'man -l $prefix/share/man/man1/calspan.1' is the manual"
if [ "$prefix" != /usr ] && [ "$prefix" != /usr/local ]; then
  echo "for C: PKG_CONFIG_PATH=$prefix/lib/pkgconfig to compile, LD_LIBRARY_PATH=$prefix/lib to run"
fi
