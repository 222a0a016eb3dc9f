# Completion of sigaudit's words, their files, and the words of its recipes, for bash.
_sigaudit() {
    local word=${COMP_WORDS[COMP_CWORD]} before=${COMP_WORDS[COMP_CWORD-1]} words=
    COMPREPLY=()
    case ${COMP_WORDS[0]##*/} in
    sigaudit)
        case $before in
        --config) _sigaudit_files "$word" toml; return ;;
        --script) _sigaudit_files "$word" txt; return ;;
        --count) _sigaudit_files "$word" csv; return ;;
        --pack) _sigaudit_files "$word" csv pack; return ;;
        --signal | --hour | --rule | --at | --demo) return ;;
        esac
        case " ${COMP_WORDS[*]:1:COMP_CWORD-1} " in
        *" --config "* | *" --script "* | *" --rule "* | *" --at "*) words="--config --script --rule --at" ;;
        *" --count "* | *" --pack "* | *" --signal "* | *" --hour "*) words="--count --pack --signal --hour" ;;
        *) words="--config --script --count --pack --demo" ;;
        esac
        ;;
@RECIPES@
    esac
    if [[ $word == -* ]] || { [[ ${COMP_WORDS[0]##*/} == sigaudit ]] && [[ -z $word ]]; }; then
        local each
        for each in $words; do
            [[ $each == "$word"* ]] && [[ " ${COMP_WORDS[*]:1:COMP_CWORD-1} " != *" $each "* ]] && COMPREPLY+=("$each")
        done
        return
    fi
    case $before in
    --config) _sigaudit_files "$word" toml ;;
    --script | --answer | --blanks | --edits | --pairs) _sigaudit_files "$word" txt ;;
    *) _sigaudit_files "$word" ;;
    esac
}

# Files with one of these ends, or all where none is named, and folders.
_sigaudit_files() {
    local word=$1 end file
    shift
    while IFS= read -r file; do
        if [[ -d $file ]]; then
            COMPREPLY+=("$file/")
            continue
        fi
        [[ $# -eq 0 ]] && COMPREPLY+=("$file")
        for end; do
            [[ $file == *".$end" ]] && COMPREPLY+=("$file")
        done
    done < <(compgen -f -- "$word")
    [[ ${#COMPREPLY[@]} -eq 1 && ${COMPREPLY[0]} == */ ]] && compopt -o nospace 2>/dev/null
    compopt -o filenames 2>/dev/null
}

complete -F _sigaudit sigaudit
@COMPLETE@
