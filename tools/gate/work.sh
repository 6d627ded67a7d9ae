# Read by checks. Goes to the top of the repository, and makes the folder `work`, which is removed when the check ends.
# Programs speak as in the C locale.
cd "$(dirname "$0")/../.."
work=$(mktemp -d)
trap 'rm -rf "$work"' EXIT
export LC_ALL=C
