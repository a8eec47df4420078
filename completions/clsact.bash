# Completion of clsact and ./clsact for bash: `source completions/clsact.bash`, or put it as clsact into the
# folder bash-completion/completions below ~/.local/share. It goes by position: commands and hooks by their
# names, files by the ends of their names, and any file behind `<` and `>`. A name with another end is written
# out, or completed with Alt-/. A name with a `$` is the shell's own, which knows what stands behind it.

# Adds the files whose names end so, and the folders: all files where no end is given, and none for a slash.
_clsact_files() {
    local word=$1 end=${2-} found
    compopt -o filenames 2>/dev/null
    while IFS= read -r found; do
        COMPREPLY+=("$found")
    done < <(compgen -d -- "$word"; compgen -f -X "!*$end" -- "$word" | while IFS= read -r found; do
        [ -d "$found" ] || printf '%s\n' "$found"
    done)
}

# Adds those of the words that begin so.
_clsact_words() {
    local word=$1 found
    shift
    while IFS= read -r found; do
        COMPREPLY+=("$found")
    done < <(compgen -W "$*" -- "$word")
}

# Sets at, command and first: the place of the word without redirections, the command before it, and the word behind
# that. Fails where the word is itself the name behind a redirection.
_clsact_place() {
    local number is_name=
    at=0 command='' first=
    for ((number = 1; number <= COMP_CWORD; number++)); do
        if [ "$is_name" ]; then
            is_name=
            [ "$number" = "$COMP_CWORD" ] && return 1
        elif [[ ${COMP_WORDS[number]} =~ ^[\<\>\&\|]+$ ]]; then
            is_name=yes
        else
            ((++at))
            [ "$at" = 1 ] && command=${COMP_WORDS[number]}
            [ "$at" = 2 ] && first=${COMP_WORDS[number]}
        fi
    done
    [ ! "$is_name" ]
}

_clsact() {
    local word=${COMP_WORDS[COMP_CWORD]} command first at
    local commands="walk show gen run recheck trace foresee check explain order json text export import convert picture sum package help"
    COMPREPLY=()
    if [[ $word == *\$* ]]; then
        compopt -o default 2>/dev/null
        return
    fi
    if ! _clsact_place; then
        [[ $word =~ ^[\<\>\&\|]+$ ]] && word=
        _clsact_files "$word"
        return
    fi
    if [ "$at" = 1 ]; then
        _clsact_words "$word" "$commands"
        return
    fi
    case $command:$at in
        walk:2 | explain:2) _clsact_words "$word" ingress egress ;;
        walk:3 | explain:3 | show:2 | export:2) _clsact_files "$word" .tc ;;
        walk:4 | walk:5 | explain:4) _clsact_files "$word" .pcap ;;
        foresee:2 | order:2) _clsact_words "$word" ingress egress ;;
        foresee:3 | foresee:4 | order:3 | order:4 | order:6) _clsact_files "$word" .tc ;;
        foresee:5 | order:5) _clsact_files "$word" .pcap ;;
        foresee:6) _clsact_words "$word" force ;;
        trace:2)
            _clsact_words "$word" ingress egress
            _clsact_files "$word" .job
            ;;
        trace:3 | trace:4)
            case $first:$at in
                ingress:3 | egress:3) _clsact_files "$word" .tc ;;
                ingress:4 | egress:4) _clsact_files "$word" .pcap ;;
                *:3) _clsact_files "$word" ;;
            esac
            ;;
        check:2 | check:3)
            case $word:$at in
                -*) _clsact_words "$word" --no-warnings ;;
                *:3) _clsact_files "$word" .tc ;;
                *)
                    _clsact_words "$word" ingress egress
                    _clsact_files "$word"
                    ;;
            esac
            ;;
        check:4) _clsact_files "$word" .pcap ;;
        run:2 | recheck:2) _clsact_files "$word" .job ;;
        picture:2)
            _clsact_files "$word" .job
            _clsact_files "$word" .txt
            ;;
        picture:4) _clsact_files "$word" .svg ;;
        gen:3 | package:2) _clsact_files "$word" / ;;
        recheck:3 | picture:3 | sum:* | import:* | convert:*) _clsact_files "$word" ;;
        help:2) _clsact_words "$word" batch job report "$commands" ;;
    esac
}

complete -F _clsact clsact
