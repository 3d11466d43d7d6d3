#!/bin/sh
# run.sh PROGRAM: recodes the stream readings.arrows, whose 24 rows are in three record batches, and says what it read and wrote.
set -e
stream=$(dirname "$0")/readings.arrows
canonical=$(mktemp)
trap 'rm -f "$canonical"' EXIT
"$1" recode < "$stream" > "$canonical"
echo "$1 recode < $stream"
echo "read $(wc -c < "$stream") bytes of three record batches, and wrote their 24 rows as one batch, $(wc -c < "$canonical") bytes."
[ "$("$1" recode < "$canonical" | sha256sum)" = "$(sha256sum < "$canonical")" ]
echo "Recoding those bytes again gives the same bytes: that is the canonical stream of the rows."
