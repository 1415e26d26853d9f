# Shared by build, install, check and bench: sourced by each, in the folder c.
top=$(cd .. && pwd)
out=$top/c/out

# Stops with a message.
fail() {
    echo "c/$(basename "$0"): $*" >&2
    exit 1
}

# meant NAME: prints the path that the caller means. The caller's folder may be one that cannot be entered.
meant() { case $1 in /* | '') printf %s "$1" ;; *) printf %s "$folder/$1" ;; esac; }

# require PACKAGE COMMAND: stops if the command is missing, and names its package.
require() {
    command -v "$2" > /dev/null || fail "no $2: install the package $1"
}

# read_target ARGS: removes --target NAME from the arguments, and leaves the others in `args`. `target` is then the
# processor of the build, `tools` is the prefix of its gcc and binutils, `lib` its library's folder, `asm` its source's
# folder, and `make_command` runs make with both.
read_target() {
    target=x86-64
    if [ "${1:-}" = --target ]; then
        target=${2:-}
        shift $(($# < 2 ? $# : 2))
    fi
    args=("$@")
    case $target in
    x86-64) tools='' lib=$out/lib ;;
    aarch64) tools=aarch64-linux-gnu- lib=$out/aarch64 ;;
    *) fail "no target '$target': there are x86-64 and aarch64" ;;
    esac
    asm=$out/asm/$target
    # Relative paths, because make splits others at the spaces of the folder's own.
    make_command=(make -s CC="${tools}gcc" CFLAGS='-O2 -Werror' asm="${asm#"$top/c/"}" out="out/made/$target"
        lib="${lib#"$top/c/"}")
}

# read_cpu ARGS: removes --cpu NAME from the arguments, and leaves the others in `args`. `cpu` is then the instruction
# set that programs are built for, or `both`: without --cpu the larger one if the loader reports that the machine has
# it. What is built is run once, so `both` needs a machine that has the larger one.
read_cpu() {
    cpu=
    if [ "${1:-}" = --cpu ]; then
        [ "$target" = x86-64 ] || fail '--cpu is for x86-64'
        cpu=${2:-}
        shift $(($# < 2 ? $# : 2))
        case $cpu in
        x86-64-v2 | x86-64-v3) ;;
        both) [ "$(best_cpu)" = x86-64-v3 ] || fail '--cpu both runs the programs: this machine has no x86-64-v3' ;;
        *) fail "no processor '$cpu': there are x86-64-v2, x86-64-v3 and both" ;;
        esac
    fi
    args=("$@")
    [ -n "$cpu" ] || cpu=$(best_cpu)
}

best_cpu() {
    if /lib64/ld-linux-x86-64.so.2 --help 2> /dev/null | grep -q '^ *x86-64-v3 (supported'; then
        echo x86-64-v3
    else
        echo x86-64-v2
    fi
}
