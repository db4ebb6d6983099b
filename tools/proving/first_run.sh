# Proves the crates that the program needs, and builds it. Sourced by ../../tock, which sets top and program.

# Whether the prover's command is there.
has_prover() {
    [ -n "$(type -P rt)" ] && return
    tell "the program is not built from the sources that stand here, and rt is not on PATH: it is the command of the" \
        "Rattle kit, in the kit's folder bin, which proves the crates and builds the program"
    return 1
}

# Proves and builds once. The stamp is that of the sources before they were proved.
build() {
    local begun=$top/out/stamp.begun
    rm -f "$program"
    begin_stamp "$begun" && "$top/tools/proving/prove" && [ -x "$program" ] && end_stamp "$begun"
}

# Until the program is that of the sources as they stand. Of two runs at once, one waits for the other.
build_until_same() {
    local has_built=no
    if ! flock -n 9; then
        tell "another run proves the kernel's crates here, and this one waits for it"
        flock 9
    fi
    until is_built; do
        [ "$has_built" = no ] || tell "a source was changed while the program was built, so it is proved once more"
        build || return
        has_built=yes
    done
}

first_run() {
    has_prover && mkdir -p "$top/out" && (build_until_same 9>"$top/out/lock")
}
