# Completions of xxhsum for bash. Written from the help by checks/xxhsum --completions.
_xxhsum() {
    local word=${COMP_WORDS[COMP_CWORD]}
    COMPREPLY=()
    if [[ $word == -* && " ${COMP_WORDS[*]:0:COMP_CWORD} " != *' -- '* ]]; then
        mapfile -t COMPREPLY < <(compgen -W '-H0 -H1 -H2 -H3 -c --check --audit --format -r --recursive --exclude -C --directory --files-from --filelist --files0-from --tag --little-endian -z --zero --binary -q --quiet --status --ignore-missing --strict -w --warn -h --help -V --version' -- "$word")
    fi
}
complete -o default -F _xxhsum xxhsum xxh32sum xxh64sum xxh128sum xxh3sum
