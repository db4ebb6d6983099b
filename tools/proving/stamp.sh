# Tells whether the program was built from the sources as they stand now, by the prover that is on PATH. Sourced by
# ../../tock, which sets top and program.
#
# out/stamp says what the program was built from:
#     crates     the folders of the crates that it needs
#     sums       a checksum of each of their files, made before they were proved
#     prover     what `rt version` said then
#     built      the program's own checksum
#     listing    sizes and times of all these files, by which a start finds in some hundredths of a second that
#                nothing has changed; where one has, the checksums decide

stamp=$top/out/stamp

# made_of FOLDERS ACTION ..: what find is to do with each file that the program is made from, those that have it made
# among them. FOLDERS is a file of folders.
made_of() {
    local folders
    mapfile -t folders <"$1" || return
    (cd "$top" && find crates.txt HANDLES tools/proving "${folders[@]}" -path '*/out' -prune -o -type f \
        \( -name '*.rt' -o -name '*.antt' -o -name crates.txt -o -name HANDLES -o -path 'tools/proving/*' \) "${@:2}" \
        2>/dev/null)
}

form='%p %s %T@ %C@\n'

# The sizes, and the times of change, of the sources and the prover's command.
listed_sources() {
    made_of "$1" -printf "$form"
    find -H "$(type -P rt)" -maxdepth 0 -printf "$form" 2>/dev/null
    return 0
}

# Those of the program.
listed_program() {
    find -H "$program" -maxdepth 0 -printf "$form"
}

listed() {
    listed_sources "$stamp/crates"
    listed_program
}

# The checksums of the sources.
summed() {
    made_of "$1" -print0 | LC_ALL=C sort -z | (cd "$top" && xargs -0 sha256sum 2>/dev/null)
}

# Whether the sources, the program and the prover are those of the stamp, though files have other times. Where there is
# no prover on PATH, the sources and the program decide.
is_same() {
    summed "$stamp/crates" | cmp -s - "$stamp/sums" &&
        sha256sum <"$program" | cmp -s - "$stamp/built" &&
        { [ -z "$(type -P rt)" ] || rt version | cmp -s - "$stamp/prover"; }
}

is_built() {
    local listing
    [ -x "$program" ] && [ -f "$stamp/listing" ] || return
    listed | cmp -s - "$stamp/listing" && return
    # The listing is made before the checksums: an edit between the two is found by the next start.
    listing=$(listed) && is_same || return
    (umask 022 && printf '%s\n' "$listing" >"$stamp/listing.$$" && mv "$stamp/listing.$$" "$stamp/listing") 2>/dev/null
    return 0
}

# begin_stamp FOLDER: writes there all of a stamp that is to be known before the sources are proved.
begin_stamp() {
    rm -rf "$1" && mkdir -p "$1" && "$top/tools/proving/prove" --crates >"$1/crates" &&
        listed_sources "$1/crates" >"$1/listing" && summed "$1/crates" >"$1/sums" && rt version >"$1/prover"
}

# end_stamp FOLDER: adds the program, and has it be the stamp.
end_stamp() {
    listed_program >>"$1/listing" && sha256sum <"$program" >"$1/built" && rm -rf "$stamp" && mv "$1" "$stamp"
}
