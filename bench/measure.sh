# Read by the scripts beside it: where the checkout is, a folder that is gone at the end, and the cost of a command on a file.
# Needs GNU time and awk.
top=$(cd "$(dirname "${BASH_SOURCE[0]}")/.." && pwd)
folder=$(mktemp -d)
trap 'rm -rf "$folder"' EXIT
program=$top/crates/condor/out/condor

# The first call builds the program, which is no part of what is measured.
echo 'Ontology()' | "$top/condor" classify >/dev/null

# The least seconds of three runs of a command on a file, and the greatest peak in KiB. Its status is not looked at.
measure() {
  local file=$1 start
  shift
  for _ in 1 2 3; do
    start=$EPOCHREALTIME
    command time -q -f '%M' -o "$folder/peak" "$@" <"$file" >"$folder/out" 2>"$folder/notes" || true
    echo "$start $EPOCHREALTIME $(cat "$folder/peak")"
  done | awk '{ t = $2 - $1 } NR == 1 || t < least { least = t } $3 > peak { peak = $3 } END { printf "%.4f %d\n", least, peak }'
}
