# What the scripts of this folder begin with: `. "$(dirname "$0")/common.sh"`.
set -eu

top=$(cd "$(dirname "$0")/.." && pwd)
# GNU time where it stands; the shell's own takes no format.
timer=$(command -v time || true)
[ -x /usr/bin/time ] && timer=/usr/bin/time
folder=$(mktemp -d)
trap 'rm -rf "$folder"' EXIT

# The built program of a crate, which a run in the crate leaves with these words.
built() {
    built=$top/crates/$1/out/$1
    [ -x "$built" ] || { echo "no $built: run '$2' in crates/$1 first" >&2; exit 1; }
    echo "$built"
}

# A picture of so many bytes: black, white, a ramp that repeats, or noise.
make_picture() {
    case $1 in
    black) head -c "$2" /dev/zero ;;
    white) head -c "$2" /dev/zero | tr '\0' '\377' ;;
    pattern) yes 'grey ramp 0123456789 abcdefghijklmnopqrstuvwxyz' | tr '\n' ' ' | head -c "$2" ;;
    noise) head -c "$2" /dev/urandom ;;
    esac
}

# Compares the built program with the reference (bench/reference.py) on cases of a kind (bench/cases.py): its kind, how many, and the
# script's own words, which are the seed and another number of cases.
compare_cases() {
    program=$(built xsx 'rt run')
    command -v python3 >/dev/null || { echo "no python3: skipped" >&2; exit 0; }
    nice python3 "$top/bench/compare.py" "$1" "${3:-1}" 0 "${4:-$2}" "$program"
}
