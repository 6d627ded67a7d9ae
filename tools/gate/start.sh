# Read by the checks of a PROGRAM, which is their first argument. Sets `program`, and does what work.sh does.
program=$(realpath "$1")
. "$(dirname "$0")/work.sh"
