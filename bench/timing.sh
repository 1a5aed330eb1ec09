# What the scripts of this folder share: they set `root` to the repository's top before they read it.

# The program that is timed: the one that is named, or else the one that is proved and built here.
program_of() { # [PROGRAM]
    if [[ $# -gt 0 ]]; then
        echo "$1"
        return
    fi
    (cd "$root/crates/rescue" && rt run -- "$root/examples/c" dump_wal 3 > /dev/null) ||
        { echo "the program isn't built" >&2; exit 1; }
    echo "$root/crates/rescue/out/rescue"
}

# The microseconds of processor time and on the clock of the best of three runs of a command.
best_of_three() {
    local least='' clock='' took
    local TIMEFORMAT='%U %S %R'
    for _ in 1 2 3; do
        took=$({ time "$@" > /dev/null 2>&1; } 2>&1 | awk '{ printf "%d %d", ($1 + $2) * 1e6, $3 * 1e6 }')
        if [[ -z $least || ${took% *} -lt $least ]]; then
            least=${took% *}
            clock=${took#* }
        fi
    done
    echo "$((least > 0 ? least : 1)) $clock"
}

# The most memory that a command takes, in KiB.
peak_memory() {
    python3 - "$@" << 'END'
import resource
import subprocess
import sys

subprocess.run(sys.argv[1:], stdout=subprocess.DEVNULL, check=True)
print(resource.getrusage(resource.RUSAGE_CHILDREN).ru_maxrss)
END
}

# A line of the table: a name, and the microseconds of processor time and on the clock.
report() {
    awk -v name="$1" -v took="$2" -v clock="$3" -v size="$size" \
        'BEGIN { printf "%-10s %8.3f s %8.0f MB/s %8.3f s on the clock\n", name, took / 1e6, size / took, clock / 1e6 }'
}

# How many times the second number the first one is.
ratio() {
    awk -v name="$1" -v a="$2" -v b="$3" 'BEGIN { printf "%-10s %8.2f\n", name, a / b }'
}
