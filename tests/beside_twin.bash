# What tests/storm and tests/dumps have in common: the program and its twin are found, and built
# where that is needed.
. "$(dirname "$(readlink -f "$0")")/counts.bash"
built=$top/twin/target/release

if [ $# -ne 2 ]; then
    echo "usage: tests/${0##*/} COUNT SEED" >&2
    exit 64
fi

find_program
twin=${STORM_TWIN:-$built/twin}
"$top/twin/build" || give_up 'the twin and what asks it could not be built'
