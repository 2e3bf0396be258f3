# The program that release/ ships, for the scripts `exhash`, `release/run`, tools/{release,dist} and the Makefile, which read
# this file with the repository's top in `root`. It is plain sh, over coreutils, findutils, awk, grep and gzip: neither the
# toolchain nor Python is needed to run what is shipped.
#
# release/PROGRAM has a line each: the version, the commit whose gate passed, the toolchain, the C library, and by
# sha256sum the sums of sources, object and program. The program itself stands beside, packed by gzip.

# What is removed however a script ends: a file that is being made, a folder for it, a stamp.
made='' room='' began=''

say() {
    echo "exhash: $*" >&2
}

clear_up() {
    rm -rf -- ${made:+"$made"} ${room:+"$room"} ${began:+"$began"}
}

clear_up_at_end() {
    trap clear_up EXIT
    trap 'exit 130' HUP INT TERM
}

sum_of() {
    sha256sum < "$1" | cut -d ' ' -f 1
}

# What the toolchain says that it is, where there is one.
toolchain() {
    rt version 2> /dev/null || echo unknown
}

# Prints the lines of crates.txt that are of crates which the program stands on, without comments, lowest first.
lines_below() {
    awk '
        { sub(/#.*/, ""); colon = index($0, ":") }
        colon {
            $0 = substr($0, 1, colon - 1) " : " substr($0, colon + 1)
            $1 = $1
            count++
            name[count] = $1
            line[count] = $0
        }
        END {
            needed["exh_cli"] = 1
            for (at = count; at > 0; at--) if (name[at] in needed) {
                words = split(line[at], word, " ")
                for (it = 2; it <= words; it++) needed[word[it]] = 1
            }
            for (at = 1; at <= count; at++) if (name[at] in needed) print line[at]
        }' "$root/crates.txt"
}

# Prints the sum over all that the program's proof reads of the repository: HANDLES, these lines, and the crates' code,
# definitions and proofs, each file with its path. It says the same wherever the checkout is.
sum_of_sources() (
    cd "$root" || exit
    LC_ALL=C
    export LC_ALL
    set --
    for crate in $(lines_below | cut -d ' ' -f 1); do
        for part in src specs proofs; do
            [ ! -d "crates/$crate/$part" ] || set -- "$@" "crates/$crate/$part"
        done
    done
    [ $# -gt 0 ] || exit
    {
        cat HANDLES
        lines_below
        find "$@" -type f \( -name '*.rt' -o -name '*.antt' \) -exec sha256sum {} + | sort -k 2
    } | sha256sum | cut -d ' ' -f 1
)

# Reads release/PROGRAM into variables. The status is 1 where nothing is shipped, or where the file isn't whole.
read_shipped() {
    shipped_version='' shipped_commit='' shipped_toolchain='' shipped_libc='' shipped_needs=''
    shipped_sources='' shipped_object='' shipped_program=''
    [ -r "$root/release/PROGRAM" ] || return 1
    while read -r key value; do
        case $key in
            exhash) shipped_version=$value ;;
            commit) shipped_commit=$value ;;
            toolchain) shipped_toolchain=$value ;;
            libc) shipped_libc=$value ;;
            needs) shipped_needs=${value#glibc } ;;
            sources) shipped_sources=$value ;;
            object) shipped_object=$value ;;
            program) shipped_program=$value ;;
        esac
    done < "$root/release/PROGRAM"
    shipped_packed=release/exhash-$shipped_version-x86_64-linux.gz
    shipped_short=$(printf '%.12s' "$shipped_commit")
    for value in "$shipped_version" "$shipped_commit" "$shipped_needs" \
        "$shipped_sources" "$shipped_object" "$shipped_program"; do
        if [ -z "$value" ]; then
            shipped_commit=''
            say 'release/PROGRAM is not whole: git checkout -- release brings it back'
            return 1
        fi
    done
}

# The same where a shipped program is asked for.
have_shipped() {
    read_shipped && return
    [ -e "$root/release/PROGRAM" ] || say 'no program is shipped in release/: ./exhash builds it'
    return 1
}

# Prints why the shipped program can't run on this machine, and nothing where it can, as far as that is known.
why_not_here() {
    for needed in awk find gzip sha256sum sort; do
        if ! command -v $needed > /dev/null; then
            echo "the command $needed is needed"
            return
        fi
    done
    if [ "$(uname -sm)" != 'Linux x86_64' ]; then
        echo "it is for Linux on x86-64, and here is $(uname -sm)"
        return
    fi
    for flag in cx16 lahf_lm popcnt ssse3 sse4_1 sse4_2; do
        if [ -r /proc/cpuinfo ] && ! grep -qw "$flag" /proc/cpuinfo; then
            echo "it is for processors of x86-64-v2, and this one lacks $flag"
            return
        fi
    done
    libc=$(getconf GNU_LIBC_VERSION 2> /dev/null)
    older=$(printf '%s\n' "${libc#glibc }" "$shipped_needs" | sort -V | head -n 1)
    if [ -n "$libc" ] && [ "$older" != "$shipped_needs" ]; then
        echo "it needs glibc $shipped_needs, and here is $libc"
    fi
}

# Unpacks the shipped program to a file, whose folder is made. It is put there whole, once its sum is right and it has told
# its version, or not at all. The status is 1 where it isn't put there, and what to do was said.
unpack_shipped() {
    why=$(why_not_here)
    if [ -n "$why" ]; then
        say "the shipped program does not run here: $why; ./exhash builds one, by the toolchain"
        return 1
    fi
    if ! said=$(mkdir -p -- "${1%/*}" 2>&1); then
        say "there is no folder to unpack the shipped program to: $said"
        return 1
    fi
    made=$1.$$
    unpack_made "$1"
    status=$?
    rm -f -- "$made"
    return $status
}

# The same, once there is the folder, beside the file first.
unpack_made() {
    if ! said=$( (gzip -dc < "$root/$shipped_packed" > "$made" && chmod 755 "$made") 2>&1 ); then
        if gzip -t < "$root/$shipped_packed" 2> /dev/null; then
            say "the shipped program is not unpacked to ${1%/*}: $(echo "$said" | grep .)"
        else
            say "$shipped_packed is damaged, or is not there: git checkout -- release brings it back"
        fi
    elif [ "$(sum_of "$made")" != "$shipped_program" ]; then
        say "$shipped_packed has another program than release/PROGRAM tells: git checkout -- release brings both back"
    elif ! said=$("$made" version 2>&1) || [ "$said" != "exhash $shipped_version" ]; then
        say "the shipped program does not run here, in ${1%/*}: $said"
    else
        mv -f -- "$made" "$1" && return
    fi
    return 1
}

# Runs the shipped program, with these words, out of a folder that is gone by then: where nothing can be kept.
run_unkept() {
    if ! room=$(mktemp -d "${TMPDIR:-/tmp}/exhash-XXXXXXXX"); then
        say 'there is no room for the shipped program: set TMPDIR to a folder that can be written to'
        return 1
    fi
    if ! unpack_shipped "$room/exhash" || ! exec 9< "$room/exhash"; then
        rm -rf -- "$room"
        return 1
    fi
    rm -rf -- "$room"
    exec /proc/self/fd/9 "$@"
}
