# Completion of geofeed's words for bash. `./install` puts it where bash-completion looks; to try
# it, source this file.

_geofeed() {
    local word=${COMP_WORDS[COMP_CWORD]} command=${COMP_WORDS[1]-}
    COMPREPLY=()
    case "$COMP_CWORD $command" in
        1\ *)
            local words='build lookup explain publish check census gen -h --help -V --version'
            mapfile -t COMPREPLY < <(compgen -W "$words" -- "$word")
            ;;
        '2 build' | '2 lookup' | '2 explain' | '2 publish' \
            | '2 check' | '2 census' | '3 gen' | '4 publish')
            # A name has no blank and does not begin at the root or above the current folder, so
            # such files are not offered.
            compopt -o filenames
            mapfile -t COMPREPLY < <(compgen -f -- "$word" \
                | grep -v -e '[[:blank:]]' -e '^/' -e '^\.\.*/' -e '/\.\.*/')
            ;;
    esac
}

complete -F _geofeed geofeed
