#!/bin/sh
# look_for.sh WHY TOOL..: says in a line which of the tools are not on the PATH, and why they are needed, and then ends with status 1.
why=$1 missing=
shift
for tool in "$@"; do
    command -v "$tool" > /dev/null || missing="$missing $tool"
done
[ -z "$missing" ] && exit
echo "$why, and these are not on the PATH:$missing (rt is the command of the Rattle toolchain: README.md, 'Run it')." >&2
exit 1
