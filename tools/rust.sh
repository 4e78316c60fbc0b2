# rust.sh: what the scripts share that link the proved codec, and those that run crate qoi 0.4.1 (the Rust) beside it. It is sourced, by a script that
# has set `root`, the repository, and defined `fail`, which says why and ends.
#
# The Rust is the folder ../shared/oracle beside the repository, or the one that the environment variable QOI_ORACLE names: a Cargo.toml of
# crate qoi, with a .cargo/config.toml that says where its dependency, Debian's librust-bytemuck-dev, is found. The published images are the folder
# ../shared/images, or the one that QOI_IMAGES names.
#
# Debian's packages that are missing are installed where one is root, and each time that is said. With PIVOTSHADE_NO_INSTALL=1 none is.

images=${QOI_IMAGES:-$root/../shared/images}

# Debian's packages, by what needs them
rust_packages=(librust-bytemuck-dev)
c_packages=(gcc libc6-dev)
emulation_packages=(cargo rustc libstd-rust-dev:amd64 gcc-x86-64-linux-gnu libc6-dev-amd64-cross qemu-user)
compare_packages=("${rust_packages[@]}")
count_packages=("${rust_packages[@]}" "${c_packages[@]}")
if [ "$(uname -m)" = aarch64 ]; then
    compare_packages+=("${emulation_packages[@]}")
    count_packages+=("${emulation_packages[@]}")
else
    count_packages+=(cargo rustc qemu-user)
fi

# quietly COMMAND...: what it prints is shown only where it fails
quietly() {
    local log=$root/target/printed status=0
    mkdir -p "$root/target"
    "$@" >"$log" 2>&1 || status=$?
    [ $status = 0 ] || cat "$log" >&2
    return $status
}

# take_no_install ARGUMENT...: sets `arguments` to those but --no-install, which stands for PIVOTSHADE_NO_INSTALL=1
take_no_install() {
    local argument
    arguments=()
    for argument; do
        if [ "$argument" = --no-install ]; then export PIVOTSHADE_NO_INSTALL=1; else arguments+=("$argument"); fi
    done
}
# say_installs PACKAGE...: what a usage says of them
say_installs() {
    echo "Run by root, it installs those of these Debian packages that are missing: $*."
    echo "With --no-install, or PIVOTSHADE_NO_INSTALL=1, it installs none, and says what is missing."
}

may_install() { [ "${PIVOTSHADE_NO_INSTALL:-}" != 1 ] && [ "$(id -u)" = 0 ] && command -v apt-get >/dev/null; }
add_packages() {
    echo "installing $*" >&2
    quietly apt-get install -y --no-install-recommends "$@"
}
# can_have TEST PACKAGE...: whether the command TEST succeeds; where it does not, the packages are installed, if one may, and it is tried again
can_have() {
    "$1" && return
    may_install || return
    add_packages "${@:2}" || { quietly apt-get update && add_packages "${@:2}"; } || return
    "$1"
}

# find_rust: sets `oracle`, the Rust's folder, and has what cargo needs to build it
find_rust() {
    oracle=${QOI_ORACLE:-$root/../shared/oracle}
    [ -f "$oracle/Cargo.toml" ] || fail "no crate qoi at $oracle; name its folder in QOI_ORACLE"
    oracle=$(cd -- "$oracle" && pwd)
    command -v cargo >/dev/null || fail "cargo is missing"
    can_have has_bytemuck "${rust_packages[@]}" || fail "the Debian package ${rust_packages[*]} is missing"
}
has_bytemuck() { compgen -G '/usr/share/cargo/registry/bytemuck-*' >/dev/null; }

# renew FROM TO: copies a file or a folder where the two differ: cargo goes by times, and builds anew where something changed, and only there
renew() { diff -rq "$1" "$2" >/dev/null 2>&1 || { rm -rf "$2" && cp -R "$1" "$2"; }; }

# copy_crate FROM TO: a copy of the crate FROM that names the Rust's folder, with the Rust's own settings for cargo
copy_crate() {
    local from=$1 to=$2 path
    mkdir -p "$to"
    rm -rf "$to/.cargo"
    renew "$from/src" "$to/src"
    [ ! -f "$from/build.rs" ] || renew "$from/build.rs" "$to/build.rs"
    path=${oracle//\\/\\\\}
    path=${path//\"/\\\"}
    {
        cat "$from/Cargo.toml"
        printf '\n[dependencies.qoi]\npath = "%s"\n' "$path"
    } >"$to/Cargo.toml"
    if [ -f "$oracle/.cargo/config.toml" ]; then
        mkdir "$to/.cargo"
        cat "$oracle/.cargo/config.toml" >"$to/.cargo/config.toml"
    fi
}

# find_rt: has what proves and compiles the codec for this machine
find_rt() {
    command -v rt >/dev/null || fail "rt is missing"
    case $(uname -m) in x86_64 | aarch64) ;; *) fail "the codec is compiled for x86-64 and Arm, and this machine is $(uname -m)" ;; esac
}

# native_archive: proves the codec and writes target/native/libqoi.a, for this machine's own processor
native_archive() { quietly "$root/tools/native-archive"; }

# prove_showing: the same, and says on standard error how far it is; where nothing changed, it says nothing
prove_showing() {
    local log=$root/target/printed
    mkdir -p "$root/target"
    (set -o pipefail && "$root/tools/native-archive" 2>&1 | tee "$log" | show_proofs) || { cat "$log" >&2 && return 1; }
}
# show_proofs: reads what native-archive prints, and says how many crates are proved and which was the last: on a terminal in one line, else in one each
show_proofs() {
    local all crates crate='' last='' proved=0 at line now shown='' start=$'\r\e[K' end='' about='proving and compiling the codec, some minutes the first time: '
    mapfile -t crates < <(crates_of_qoi)
    all=${#crates[@]}
    [ -t 2 ] || { start='' end=$'\n'; }
    while IFS= read -r line; do
        case $line in
            "native-archive: proving "*) ;;
            "rt: chose --jobs "*" for "*)
                crate=${line##* }
                continue
                ;;
            # what stands lower was proved before it, now or earlier
            "logic=proved "*)
                for at in "${!crates[@]}"; do [ "${crates[at]}" != "$crate" ] || proved=$((at + 1)); done
                last=", $crate"
                ;;
            "native-archive: "*" is there") proved=$all last=", ${crates[-1]}" ;;
            *) continue ;;
        esac
        now="$proved of $all crates$last"
        [ "$now" != "$shown" ] || continue
        printf '%s' "$start$about$now$end" >&2
        [ -z "$end" ] || about=''
        shown=$now
    done
    # a terminal's line is still open
    [ -z "$shown" ] || [ -n "$end" ] || echo >&2
}
# crates_of_qoi: the crates that crate qoi_c stands on, each after those that it stands on, and itself
crates_of_qoi() {
    awk -F: '
        function visit(name,    below, n, i) {
            if (!(name in stands_on) || name in seen) return
            seen[name]
            n = split(stands_on[name], below, " ")
            for (i = 1; i <= n; i++) visit(below[i])
            print name
        }
        /^[^#]/ { split($1, word, " "); stands_on[word[1]] = $2 }
        END { visit("qoi_c") }' "$root/crates.txt"
}

# build_host FOLDER NAME CARGO...: builds the host in target/host/NAME, with the archive libqoi.a of target/FOLDER, by CARGO with its options
build_host() {
    local archive=$root/target/$1/libqoi.a work=$root/target/host/$2
    shift 2
    copy_crate "$root/host" "$work"
    mkdir -p "$work/archive"
    renew "$archive" "$work/archive/libqoi.a"
    (cd "$work" && PIVOTSHADE_ARCHIVE=$work/archive CARGO_TARGET_DIR=$work/build "$1" build --release --quiet "${@:2}")
}

# build_program NAME OPTION...: builds the program of pipeline/NAME, with the archive of target/native, to target/worker/release/NAME
build_program() {
    (
        cd "$root/pipeline/$1"
        export PIVOTSHADE_ARCHIVE=$root/target/native CARGO_TARGET_DIR=$root/target/worker
        quietly cargo build --release --offline "${@:2}"
    )
}

# find_emulation: whether an Arm machine has, or can be given, what builds and runs a host for x86-64
emulated_target=x86_64-unknown-linux-gnu
has_emulation() {
    [ -x /usr/bin/cargo ] && [ -x /usr/bin/rustc ] && [ -d /usr/lib/rustlib/$emulated_target/lib ] && [ -d /usr/x86_64-linux-gnu/include ] &&
        command -v x86_64-linux-gnu-gcc >/dev/null && command -v qemu-x86_64 >/dev/null
}
add_emulation() {
    may_install || return
    echo "adding dpkg's foreign architecture amd64" >&2
    dpkg --add-architecture amd64 && quietly apt-get update && add_packages "${emulation_packages[@]}"
}
find_emulation() { has_emulation || { add_emulation && has_emulation; }; }

# emulated_host: proves and compiles the x86-64 archive on an Arm machine and builds the host with it; sets `emulated`, the host
emulated_host() {
    quietly "$root/tools/native-archive" x86_64 || return
    RUSTC=/usr/bin/rustc CARGO_TARGET_X86_64_UNKNOWN_LINUX_GNU_LINKER=x86_64-linux-gnu-gcc \
        build_host x86_64 emulated /usr/bin/cargo --target $emulated_target || return
    emulated=$root/target/host/emulated/build/$emulated_target/release/host
}
