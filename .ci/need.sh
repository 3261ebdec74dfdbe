# Sourced by the scripts that call more than rt.

# need TOOL..: installs those that are not there, or says in one line what to install. A package has its tool's name; the one of gcc leaves the C
# library's headers to another.
need() {
    local tool packages=()
    for tool; do
        command -v "$tool" >/dev/null && continue
        packages+=("$tool")
        [ "$tool" != gcc ] || packages+=(libc6-dev)
    done
    [ ${#packages[@]} != 0 ] || return 0
    install_packages "${packages[@]}" || true
    for tool; do
        command -v "$tool" >/dev/null && continue
        echo "tools are missing: apt-get install ${packages[*]}, as root" >&2
        exit 1
    done
}

install_packages() {
    [ "$(id -u)" = 0 ] && command -v apt-get >/dev/null || return 1
    apt-get update >/dev/null || return 1
    DEBIAN_FRONTEND=noninteractive apt-get install -y "$@" >/dev/null
}
