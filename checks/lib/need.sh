# Packages that scripts of benchmarks install.
checks=$(cd "$(dirname "${BASH_SOURCE[0]}")/.." && pwd)

# need PACKAGE WHAT: installs the Debian package, unless WHAT is a command or, with a slash, the pattern of a file.
need() {
    if [[ $2 == */* ]]; then compgen -G "$2" > /dev/null; else command -v "$2" > /dev/null; fi && return
    "$checks/install" "$1" && return
    echo "$(basename "$0"): no $2, and its package $1 could not be installed" >&2
    exit 1
}
