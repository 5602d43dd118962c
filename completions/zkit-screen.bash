# Completes the words of zkit-screen in bash. tools/options.py --write makes this file of the table of options.

# Offers folders, and the files with some endings, or all files if there are none of these.
_zkit_screen_files() {
    local file
    compopt -o filenames
    mapfile -t COMPREPLY < <(
        compgen -d -- "$word"
        compgen -f -- "$word" | while IFS= read -r file; do
            [[ ! ${file,,} =~ \.($1)$ ]] || printf '%s\n' "$file"
        done
    )
    [ ${#COMPREPLY[@]} -gt 0 ] || _zkit_screen_all -f
}

# Offers all files, or all folders.
_zkit_screen_all() {
    compopt -o filenames
    mapfile -t COMPREPLY < <(compgen "$1" -- "$word")
}

_zkit_screen_words() {
    mapfile -t COMPREPLY < <(compgen -W "$1" -- "$word")
}

_zkit_screen() {
    local word=${COMP_WORDS[COMP_CWORD]} before=${COMP_WORDS[COMP_CWORD - 1]}
    COMPREPLY=()
    # an option and its value may be joined by =
    if [ "$word" = = ]; then
        word=
    elif [ "$before" = = ]; then
        before=${COMP_WORDS[COMP_CWORD - 2]}
    fi
    case $before in
        --seed) return ;;
        --saves) _zkit_screen_all -d; return ;;
    esac
    case $word in
        -*) _zkit_screen_words "--seed --saves --plain --help --version" ;;
        *) _zkit_screen_files 'z3|z4|z5|z8|zblorb|zlb|blorb|blb' ;;
    esac
}

complete -F _zkit_screen zkit-screen
