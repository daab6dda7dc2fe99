# Sourced by the scripts beside it, which have made $room: counts the x86-64 instructions of a run, by valgrind.
# The count is exact and repeatable.
need() { # COMMAND PACKAGE
    command -v "$1" >/dev/null || { apt-get update && apt-get install -y "$2"; } >"$room/apt" 2>&1
}
need valgrind valgrind

count() { # PROGRAM < INPUT
    valgrind --tool=callgrind --callgrind-out-file="$room/calls" "$1" >/dev/null 2>"$room/valgrind"
    sed -n 's/^summary: //p' "$room/calls"
}
