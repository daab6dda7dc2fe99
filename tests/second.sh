# For tests that run the second program: it is compiled once, and again only when its sources, its flags or
# the compiler have changed.

# second_program: where the program is; it is made if it is not there. From the repository's top.
second_program() {
    local flags='-O --edition 2021 -D warnings' sum program
    sum=$({
        rustc --version --verbose
        echo "$flags"
        find tests/second -name '*.rs' -print0 | LC_ALL=C sort -z | xargs -0 sha256sum
    } | sha256sum | cut -c 1-16) || return
    program=target/second/$sum
    if [ ! -x "$program" ]; then
        mkdir -p target/second
        # under a name of its own until it is whole
        rustc $flags tests/second/main.rs -o "$program.$$" && mv "$program.$$" "$program" || return
    fi
    echo "$program"
}
