# Read by scripts that time the program: each run of theirs has a site of its own.

# Goes to a new folder, in memory where the machine has such a file system, since a run syncs. The folder goes
# when the script ends.
enter_folder() {
    local memory=/dev/shm
    [[ -d $memory && -w $memory ]] || memory=${TMPDIR:-/tmp}
    sites_folder=$(mktemp -d -p "$memory")
    trap 'cd / && chmod -R u+w "$sites_folder" && rm -rf "$sites_folder"' EXIT
    cd "$sites_folder" || exit 1
}

# Runs a command on blank devices.
on_blank() { # COMMAND WORD..
    rm -rf mss.site
    "$@"
}
