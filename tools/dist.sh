#!/bin/sh
# dist.sh COMMAND ..: the program in dist/, the sources that it is made from, and what `make` and `make install` do with both. Paths are from the top of the
# repository.
#
# put                       puts the program into bin/, and says where it comes from: what was built here, else dist/, else a proof and a build of now
# install [--remove] FOLDER puts bin/arrowstore, its man page and its shell completions where they belong below that folder, or removes them from there
# prove WHY [--anew]        proves `program` and all crates that it uses, and builds it: crates/program/out/program
# is-built                  whether crates/program/out/program was built from the sources that are here, none of which is newer
# make PROGRAM FOLDER       makes what dist/ holds of a program that was proved and built from the sources that are here
# compare PROGRAM           compares dist/, where its manifest names the sources that are here, with what is made of the program that was built of them
# sum                       prints the SHA-256 over all sources that the program is made from
#
# put, install and sum need the usual Unix tools and gzip alone, where dist/ holds the program of the sources that are here.
set -e
cd "$(dirname "$0")/.."
built=crates/program/out/program

# The lines of crates.txt of `program` and of all crates that it uses, by name.
program_crates() {
    awk '
        function visit(name,    names, number, place) {
            if (!(name in lines) || name in seen)
                return
            seen[name] = 1
            number = split(below[name], names, " ")
            for (place = 1; place <= number; place++)
                visit(names[place])
        }
        { sub(/#.*/, "") }
        NF {
            split($0, parts, ":")
            split(parts[1], words, " ")
            lines[words[1]] = $0
            below[words[1]] = parts[2]
        }
        END {
            visit("program")
            for (name in seen)
                print lines[name]
        }
    ' crates.txt | LC_ALL=C sort
}

# The folders that the program is made from: src/, specs/ and proofs/ of these crates.
program_folders() {
    program_crates | while read -r line; do
        for part in src specs proofs; do
            folder=crates/${line%%[ :]*}/$part
            if [ -d "$folder" ]; then
                echo "$folder"
            fi
        done
    done
}

# The same sum on any machine: over HANDLES, the lines of crates.txt that count, and the path and SHA-256 of each file in the folders that count, by path.
sources_sum() {
    {
        cat HANDLES
        program_crates
        # No name of a crate has a blank.
        # shellcheck disable=SC2046
        find $(program_folders) -type f -exec sha256sum {} + | LC_ALL=C sort -k 2
    } | sha256sum | cut -d ' ' -f 1
}

# The value of a name in the manifest of dist/, which has a line `NAME VALUE` for each.
manifest_value() {
    awk -v name="$1" '$1 == name { sub(/^[^ ]* /, ""); print }' dist/manifest
}

# Whose sources the manifest of dist/ names: `these` that are here, `others`, or of `none` where there is no dist/.
dist_names() {
    if [ ! -f dist/manifest ]; then
        echo none
    elif [ "$(manifest_value sources)" = "$(sources_sum)" ]; then
        echo these
    else
        echo others
    fi
}

is_built() {
    # A folder is newer where a file was removed from it.
    # shellcheck disable=SC2046
    [ -f $built ] && [ -z "$(find HANDLES crates.txt $(program_folders) -newer $built)" ]
}

# Unpacks the program of dist/ to a place, where it is what the manifest says and runs here.
take() {
    program=$1
    trap 'rm -f "$program.new"' EXIT
    if ! gzip -dc dist/arrowstore.gz > "$program.new" || [ "$(sha256sum < "$program.new" | cut -d ' ' -f 1)" != "$(manifest_value program)" ]; then
        echo "dist/arrowstore.gz is damaged: it does not hold the program that dist/manifest names. Get dist/ anew ('git checkout dist'), or run 'make proved'." >&2
        exit 1
    fi
    chmod 755 "$program.new"
    if [ "$("$program.new" --version 2> /dev/null)" != "arrowstore $(manifest_value version)" ]; then
        echo "The program of dist/ does not run here: it is for $(manifest_value target)." >&2
        exit 1
    fi
    mv "$program.new" "$program"
}

put() {
    mkdir -p bin
    if ! is_built; then
        case $(dist_names) in
        these)
            take bin/arrowstore
            echo "bin/arrowstore is the program of dist/, which was proved and built from exactly these sources."
            exit
            ;;
        others) prove "dist/ holds the program of other sources" ;;
        none) prove "There is no dist/" ;;
        esac
    fi
    cp $built bin/arrowstore.new
    mv bin/arrowstore.new bin/arrowstore
    echo "bin/arrowstore is what was proved and built here, $built."
}

# The option with which `rt ci` takes nothing that an earlier run has proved, where this release of the toolchain has one. Others prove each crate anew
# without it. What a release knows is in its own help.
from_nothing() {
    case $(rt help 2>&1) in
    *--anew*) echo --anew ;;
    esac
}

# A copy of the repository that has what the program is made from alone, in a folder.
copy_sources() {
    # rt looks for the top of a repository.
    mkdir "$1/.git"
    program_crates > "$1/crates.txt"
    cp HANDLES "$1"
    for folder in $(program_folders); do
        mkdir -p "$1/${folder%/*}"
        cp -R "$folder" "$1/$folder"
    done
    # What the program is run on, and what it must write.
    for file in crates/program/*; do
        if [ -f "$file" ]; then
            cp "$file" "$1/crates/program"
        fi
    done
}

# It is the gate (`rt ci`) on a copy that has no other crates and no must-fail edits, so it builds what the gate builds. What an earlier run on this machine
# proved of the same files counts, if the toolchain keeps it, but with --anew. WHY is printed first.
prove() {
    tools/look_for.sh "$1, so these are to be proved and built" rt gcc python3
    echo "$1: proving and building these sources, in half an hour to an hour on four processors. A line comes for each crate and function."
    anew=
    [ "$2" != --anew ] || anew=$(from_nothing)
    sum=$(sources_sum)
    room=$(mktemp -d)
    trap 'rm -rf "$room"' EXIT
    trap 'exit 1' HUP INT TERM
    copy_sources "$room"
    # Without the option it has no word.
    # shellcheck disable=SC2086
    (cd "$room" && rt ci $anew)
    if [ "$(sources_sum)" != "$sum" ]; then
        echo "A source was changed meanwhile, so what was built is not kept: run this again." >&2
        exit 1
    fi
    mkdir -p crates/program/out
    cp "$room/$built" $built
}

make_dist() {
    program=$1 folder=$2
    version=$("$program" --version)
    glibc=$(grep -aho 'GLIBC_2\.[0-9]*' "$program" | sort -u -t . -k 2n | tail -n 1)
    toolchain=$(rt version)
    sum=$(sha256sum < "$program")
    sources=$(sources_sum)
    mkdir -p "$folder"
    gzip -n -9 -c "$program" > "$folder/arrowstore.gz"
    cat > "$folder/manifest" << END
version ${version#arrowstore }
target x86_64 Linux with glibc ${glibc#GLIBC_} or later, on a processor with SSE4.2 and POPCNT (x86-64-v2)
toolchain $toolchain
program ${sum%% *}
sources $sources
END
    tools/pages.py "$program" "$folder"
}

# All of it must be the same byte for byte. Another gzip may pack otherwise, so what is packed is compared unpacked. Another release of the toolchain may
# compile otherwise, so where the manifest names another one than `rt version` does, the program and its sum are left out.
compare() {
    case $(dist_names) in
    others) echo "dist/ holds the program of other sources than these, so there is nothing to compare: 'make dist' makes it anew." && exit ;;
    none) echo "There is no dist/ to compare with: 'make dist' makes it." && exit ;;
    esac
    room=$(mktemp -d)
    trap 'rm -rf "$room"' EXIT
    cp -R dist "$room/dist"
    make_dist "$1" "$room/made"
    for packed in "$room/dist/arrowstore.gz" "$room/made/arrowstore.gz"; do
        gzip -d "$packed"
    done
    there=$(manifest_value toolchain) here=$(rt version) what="is what these sources make, byte for byte."
    if [ "$there" != "$here" ]; then
        what="was made by another toolchain ($there, and here is $here), so all but the program was compared: it is what these sources make."
        for side in dist made; do
            rm "$room/$side/arrowstore"
            grep -v -e '^toolchain ' -e '^program ' "$room/$side/manifest" > "$room/$side.manifest"
            mv "$room/$side.manifest" "$room/$side/manifest"
        done
    fi
    if ! (cd "$room" && diff -r dist made); then
        echo "dist/ names these sources, and is not what they make (above: < in dist/, > made of them). 'make dist' makes it anew from what the gate built." >&2
        exit 1
    fi
    echo "dist/ $what"
}

# Places a file below the folder, or removes it from there: its rights, the file, its path.
place() {
    if [ "$removes" ]; then
        rm -f "$folder/$3"
    else
        mkdir -p "$(dirname "$folder/$3")"
        install -m "$1" "$2" "$folder/$3"
    fi
    echo "$folder/$3"
}

install_program() {
    removes=
    if [ "$1" = --remove ]; then
        removes=1
        shift
    fi
    folder=${1:?usage: dist.sh install [--remove] FOLDER}
    # Some shells leave the tilde of `PREFIX=~/.local` to the program that they call.
    case $folder in
    \~/*) folder=$HOME/${folder#\~/} ;;
    esac
    pages=dist
    if [ ! "$removes" ] && [ "$(dist_names)" != these ]; then
        pages=$(mktemp -d)
        trap 'rm -rf "$pages"' EXIT
        tools/pages.py bin/arrowstore "$pages"
    fi
    place 755 bin/arrowstore bin/arrowstore
    place 644 "$pages/arrowstore.1" share/man/man1/arrowstore.1
    place 644 "$pages/completions/arrowstore.bash" share/bash-completion/completions/arrowstore
    place 644 "$pages/completions/_arrowstore" share/zsh/site-functions/_arrowstore
    place 644 "$pages/completions/arrowstore.fish" share/fish/vendor_completions.d/arrowstore.fish
}

command=$1
[ $# = 0 ] || shift
case $command in
put) put ;;
install) install_program "$@" ;;
prove) prove "$@" ;;
is-built) is_built ;;
make) make_dist "$@" ;;
compare) compare "$@" ;;
sum) sources_sum ;;
*)
    sed -n '2,/^set -e/s/^# \{0,1\}//p' tools/dist.sh >&2
    exit 2
    ;;
esac
