# shellcheck shell=sh disable=SC2034 # (the caller reads what is set here)
# The programs of a release, and what each has to do at its first try. Sourced: release.sh ships them so, and statuses.sh tries the
# same in the gate.
programs='client_cli file_module_cli ab_image_cli scenario_cli tree_cli signed_cli trace_cli'

# Starts the program $1, which is the file $2, with the folder $3 for what it is given. `found` is what it writes to standard output
# and its exit status, `wanted` what these have to be.
first_try() {
    mkdir -p "$3/work/0000/files"
    head -c 12288 /dev/zero > "$3/blocks"
    case $1 in
        client_cli) wanted='usage 2 0, 9'; set -- "$2" --help ;;
        file_module_cli | ab_image_cli) wanted='Yes, 0'; set -- "$2" SupportsRollback "$3/work/0000" ;;
        tree_cli | trace_cli) wanted=', 15'; set -- "$2" ;;
        *) wanted=', 2'; set -- "$2" ;;
    esac
    code=0
    found=$("$@" 2> /dev/null < /dev/null) || code=$?
    found="$found, $code"
}
