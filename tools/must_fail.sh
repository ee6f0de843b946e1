#!/usr/bin/env bash
# must_fail.sh NAME [LABEL..]: tries the must-fail edits of one crate, those that the gate tries (crates/NAME/must-fail) and the further ones
# that it leaves out for its time (tests/edits/NAME), and shows for each the first thing that is not proved with it.
# It works on a copy of this repository, for which rt begins with what it kept here (rt check); what an edit came to before, with the same files, is not tried again.
# Exit status: 0 all are refused; 1 one is still proved, or bad: its text does not stand in the code, or cannot be read.
set -u
name=$1
shift
top=$(cd "$(dirname "$0")/.." && pwd)
[ -d "$top/crates/$name/src" ] || { echo "must_fail.sh: no crate $name" >&2; exit 2; }
copy=$(mktemp -d) || exit 1
trap 'rm -rf "$copy"' EXIT
(cd "$top" && tar -cf - --exclude='crates/*/out' crates crates.txt $([ -f HANDLES ] && echo HANDLES)) | tar -xf - -C "$copy"
mkdir -p "$copy/.git" "$copy/crates/$name/must-fail"
[ ! -d "$top/tests/edits/$name" ] || cp "$top/tests/edits/$name"/*.edit "$copy/crates/$name/must-fail/"
if [ $# -gt 0 ]; then
  for edit in "$copy/crates/$name"/must-fail/*.edit; do
    case " $* " in *" $(basename "$edit" .edit) "*) ;; *) rm "$edit" ;; esac
  done
fi
cd "$copy" || exit 1
rt must-fail "$name" 2>&1 | grep -E "^rt: (must-fail|$name:)|error"
exit "${PIPESTATUS[0]}"
