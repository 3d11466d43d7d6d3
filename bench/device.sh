#!/bin/sh
# Writes, syncs and reads this many mebibytes through a device that is a file, writes and syncs as many by rows of sectors, and does the same by dd, some times in
# turn in one run, and prints the least times and their ratios.
#   bench/device.sh PROGRAM [MEBIBYTES] [FOLDER] [TIMES]
# The program is that of crates/bench; `make bench-device` builds it.
set -e
program=$1
size=${2:-100}
folder=${3:-$(dirname "$0")}
times=${4:-5}
file=$folder/bench_device.tmp
least() { sort -n | head -1; }
micros() { echo $(($(date +%s%N) / 1000)); }
# The ratio of two numbers, to two places.
ratio() { printf '%d.%02d' $(($1 / $2)) $(($1 % $2 * 100 / $2)); }

rm -f "$file" "$file".device "$file".write "$file".rows "$file".read
dd if=/dev/urandom of="$file".source bs=1M count="$size" conv=fdatasync status=none
for i in $(seq "$times"); do
  "$program" device "$file" "$size" 2>>"$file".device
  start=$(micros)
  dd if="$file".source of="$file" bs=1M conv=fdatasync status=none
  echo $(($(micros) - start)) >>"$file".write
  start=$(micros)
  dd if="$file" of=/dev/null bs=1M status=none
  echo $(($(micros) - start)) >>"$file".read
  rm -f "$file"
done
cp "$file".write "$file".rows
for what in write rows read; do
  device=$(sed -n "s/^device $what //p" "$file".device | least)
  plain=$(least <"$file".$what)
  echo "$what $size MiB: device $device us, dd $plain us, ratio $(ratio "$device" "$plain")"
done
rm -f "$file".source "$file".device "$file".write "$file".rows "$file".read
