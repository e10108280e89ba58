# The folder that everything is tried in, the process that may run beside a part, and texts that several parts use. At the
# end that process and the folder are removed. To be sourced.
#
# In the folder, $work: stdin is what the program gets, stdout and stderr what it printed, and expected what it should
# print. Parts go on with what those before them left in files, lists, folder and ages, and with save and other. Nothing
# has the names none and missing.

work=$(mktemp -d)
beside=
trap '[ -z "$beside" ] || kill -9 "$beside" 2> /dev/null; rm -rf "$work"' EXIT

escape=$(printf '\033[2J')
tab=$'\t'
# A byte longer than a name may be.
long_name=$(printf 'a%.0s' {1..65})
