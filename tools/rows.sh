# What the scripts of this folder share that start the built programs: rows that pass or fail, and trees and devices for them. Sourced
# with $top, the repository, and in a folder of the script's own.

passed=0
failed=0

# The file of the program $1: where the gate leaves it, or in the folder PROGRAMS of the environment.
program() {
    if [ -n "${PROGRAMS:-}" ]; then
        echo "$PROGRAMS/$1"
    else
        echo "$top/crates/$1/out/$1"
    fi
}

# Sees that the command behind $2 ends with the status $1. What it writes goes to `out` and `err`.
ends() {
    wanted=$1
    title=$2
    shift 2
    "$@" > out 2> err < /dev/null
    found=$?
    if [ "$found" = "$wanted" ]; then
        passed=$((passed + 1))
    else
        failed=$((failed + 1))
        echo "$title: exit status $found, not $wanted"
    fi
}

# Sees that the last command wrote $1 to standard output.
says() {
    if [ "$(cat out)" = "$1" ]; then
        passed=$((passed + 1))
    else
        failed=$((failed + 1))
        echo "$title: '$(cat out)', not '$1'"
    fi
}

# Sees that the last command wrote the line $1 to standard error.
tells() {
    told=no
    while IFS= read -r line; do
        [ "$line" != "$1" ] || told=yes
    done < err
    if [ $told = yes ]; then
        passed=$((passed + 1))
    else
        failed=$((failed + 1))
        echo "$title: '$(cat err)' on standard error, without '$1'"
    fi
}

# Writes the manifest of the tree $1, whose files it lists.
list() {
    (cd "$1" && sha256sum version header/header-info header/headers/0000/type-info data/0000/* > manifest)
}

# Makes a tree for a device of the type beaglebone in the folder $1: an artifact named $2 with a payload of the type $3, whose
# type-info has $4 behind its type.
tree() {
    mkdir -p "$1/header/headers/0000" "$1/data/0000"
    printf '%s' '{"format":"mender","version":3}' > "$1/version"
    printf '%s' "{\"payloads\":[{\"type\":\"$3\"}],\"artifact_provides\":{\"artifact_name\":\"$2\"},\"artifact_depends\":{\"device_type\":[\"beaglebone\"]}}" > "$1/header/header-info"
    printf '%s' "{\"type\":\"$3\"${4:-}}" > "$1/header/headers/0000/type-info"
    printf abc > "$1/data/0000/app.bin"
    list "$1"
}

# Makes the data folder $1 of a device of the type beaglebone, whose module for payloads of the type `app` does the lines of
# standard input, with the state or the question in $1.
device() {
    rm -rf "$1"
    mkdir -p "$1/modules/v3"
    echo device_type=beaglebone > "$1/device_type"
    { echo '#!/bin/sh'; cat; } > "$1/modules/v3/app"
    chmod +x "$1/modules/v3/app"
}

# So many bytes v.
bytes() {
    head -c "$1" /dev/zero | tr '\0' v
}

client() {
    "$(program client_cli)" "$@"
}

file_module() {
    "$(program file_module_cli)" "$@"
}

ab_image() {
    "$(program ab_image_cli)" "$@"
}

tree_cli() {
    "$(program tree_cli)" "$@"
}

trace_cli() {
    "$(program trace_cli)" "$@"
}

scenario() {
    "$(program scenario_cli)" "$@"
}

# Sees that the lines of shell in $2 end with 0, which $1 says in words.
holds() {
    title=$1
    if (eval "$2") > found 2>&1 < /dev/null; then
        passed=$((passed + 1))
    else
        failed=$((failed + 1))
        echo "$title: '$2' doesn't hold: $(cat found)"
    fi
}

# Tells how many rows passed, and ends with 1 where one failed.
sum_up() {
    echo "$passed passed, $failed failed"
    [ "$failed" = 0 ]
}
