#!/usr/bin/env bash
# Keeps what climbs have proved on this machine, until it is ended: the kit's store holds 10 GB and forgets the longest unused, and the libraries of the
# program alone are more. Each proof and test that the store has gets a second name in FOLDER (hard links, which take no room while the first is
# there), and gets back into the store when the store forgets it. Begin it with the first climb of a session: keep_store.sh [FOLDER] &
set -u
store=/opt/rattle-kept
folder=${1:-/var/tmp/rattle-kept-too}
mkdir -p "$folder"

# Takes two folders: what the first has and the second hasn't is linked into the second, whole or not at all.
links() {
  local from=$1 to=$2 entry name
  for entry in "$from"/proof-* "$from"/tests-*; do
    name=${entry##*/}
    [ -e "$entry" ] && [ ! -e "$to/$name" ] || continue
    cp -al "$entry" "$to/.$name" 2>/dev/null && mv "$to/.$name" "$to/$name" || rm -rf "${to:?}/.$name"
  done
}

while sleep 10; do
  links "$store" "$folder"
  links "$folder" "$store"
done
