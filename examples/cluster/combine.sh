#!/bin/sh
# Prints the means over the members of a study that are finished, with their standard errors.
#     combine.sh FOLDER     the folder of the study, which has a folder seed1, seed2 .. for each member
set -eu
here=$(cd "$(dirname "$0")" && pwd)
LC_ALL=C
export LC_ALL
if [ $# -ne 1 ] || [ ! -d "$1" ]; then
    echo "combine.sh: takes the folder of a study" >&2
    exit 1
fi
unfinished=0
for folder in "$1"/seed*; do
    [ -e "$folder/results.txt" ] || unfinished=$((unfinished + 1))
done
[ "$unfinished" -eq 0 ] || echo "combine.sh: $unfinished members in $1 are not finished, and left out" >&2
set -- "$1"/seed*/results.txt
if [ ! -e "$1" ]; then
    echo "combine.sh: no member is finished" >&2
    exit 1
fi
exec awk -f "$here/combine.awk" "$@"
