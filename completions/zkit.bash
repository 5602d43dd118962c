# Completes the words of zkit in bash. tools/options.py --write makes this file of the table of options.

# Offers folders, and the files with some endings, or all files if there are none of these.
_zkit_files() {
    local file
    compopt -o filenames
    mapfile -t COMPREPLY < <(
        compgen -d -- "$word"
        compgen -f -- "$word" | while IFS= read -r file; do
            [[ ! ${file,,} =~ \.($1)$ ]] || printf '%s\n' "$file"
        done
    )
    [ ${#COMPREPLY[@]} -gt 0 ] || _zkit_all -f
}

# Offers all files, or all folders.
_zkit_all() {
    compopt -o filenames
    mapfile -t COMPREPLY < <(compgen "$1" -- "$word")
}

_zkit_words() {
    mapfile -t COMPREPLY < <(compgen -W "$1" -- "$word")
}

_zkit() {
    local word=${COMP_WORDS[COMP_CWORD]} before=${COMP_WORDS[COMP_CWORD - 1]}
    COMPREPLY=()
    # an option and its value may be joined by =
    if [ "$word" = = ]; then
        word=
    elif [ "$before" = = ]; then
        before=${COMP_WORDS[COMP_CWORD - 2]}
    fi
    if [ "$COMP_CWORD" = 1 ]; then
        _zkit_words "play info disasm check test cover page unpack help --help --version"
        return
    fi
    case $before in
        --frames | --words | --undo | --steps | --at | --routine | --around | --depth | --title | --author) return ;;
        --seed) _zkit_words any; return ;;
        --save | --script | --record | --cover | --names | --files-from | --story | --lcov | --html | --blurb | --walkthrough) _zkit_all -f; return ;;
        --saves | --source) _zkit_all -d; return ;;
        --width | --page) _zkit_words auto; return ;;
    esac
    case ${COMP_WORDS[1]} in
        play)
            case $word in
                -*) _zkit_words "--frames --words --undo --steps --seed --save --saves --script --upper --boxes --width --page --styles --echo --record --calls --cover --names --help" ;;
                *) _zkit_files 'z3|z4|z5|z8|zblorb|zlb|blorb|blb' ;;
            esac
            ;;
        info)
            case $word in
                -*) _zkit_words "--header --map --abbreviations --dictionary --objects --tree --ifid --strings --properties --globals --alphabets --extension --names --notes --graph --svg --rows --json --recursive --files-from --help" ;;
                *) _zkit_files 'z3|z4|z5|z8|zblorb|zlb|blorb|blb' ;;
            esac
            ;;
        disasm)
            case $word in
                -*) _zkit_words "--all --at --routine --only --cover --names --source --callers --notes --graph --around --depth --help" ;;
                *) _zkit_files 'z3|z4|z5|z8|zblorb|zlb|blorb|blb' ;;
            esac
            ;;
        check)
            case $word in
                -*) _zkit_words "--names --notes --summary --rows --json --recursive --files-from --help" ;;
                *) _zkit_files 'z3|z4|z5|z8|zblorb|zlb|blorb|blb' ;;
            esac
            ;;
        test)
            case $word in
                -*) _zkit_words "--files-from --story --bless --cover --names --strict --help" ;;
                *) _zkit_files 'walkthrough' ;;
            esac
            ;;
        cover)
            case $word in
                -*) _zkit_words "--names --source --lcov --html --help" ;;
                *) _zkit_files 'txt|z3|z4|z5|z8|zblorb|zlb|blorb|blb' ;;
            esac
            ;;
        page)
            case $word in
                -*) _zkit_words "--title --author --blurb --cover --walkthrough --help" ;;
                *) _zkit_files 'z3|z4|z5|z8|zblorb|zlb|blorb|blb|html' ;;
            esac
            ;;
        unpack)
            case $word in
                -*) _zkit_words "--help" ;;
                *) _zkit_files 'zblorb|zlb|blorb|blb' ;;
            esac
            ;;
        help) _zkit_words "play info disasm check test cover page unpack" ;;
    esac
}

complete -F _zkit zkit
