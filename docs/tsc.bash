# Completion for bash of tsc and ./tsc: source docs/tsc.bash, or copy it to ~/.local/share/bash-completion/completions/tsc.
# The words are those of `tsc help`; bench/documents compares them.

# The words that may come behind those that are there, `_` where any word may come.
_tsc_next() {
    case "$*" in
    '') echo 'synth ask audit faults vectors grade sim make join help' ;;
    synth) echo 'blif kiss pla' ;;
    'synth blif') echo 'parity berger mofn duplex watched' ;;
    'synth pla') echo 'parity berger mofn duplex' ;;
    'synth kiss') echo 'berger mofn' ;;
    ask) echo exact ;;
    audit) echo 'blif kiss pla wide exact mapped proof' ;;
    'audit exact') echo 'blif kiss pla' ;;
    sim) echo 'none stem pin' ;;
    'sim stem '* | 'sim pin '*)
        # stem NET V WHEN, pin NET INDEX V WHEN
        case "$2 $#" in
        'stem 3' | 'pin 4') echo '0 1' ;;
        'stem 2' | 'pin 2' | 'pin 3' | 'stem 4' | 'pin 5') echo _ ;;
        esac
        ;;
    'audit wide' | 'sim stem' | 'sim pin' | make) echo _ ;;
    esac
}

# whether a command is the script, which has options before the program's words: one with a path is taken for it, and of a name alone
# the file that the shell finds is looked at
_tsc_is_script() {
    local file first=''
    [[ $1 == */* ]] && return
    file=$(type -P -- "$1") && [[ -r $file ]] && IFS= LC_ALL=C read -r -N 2 first <"$file" 2>/dev/null
    [[ $first == '#!' ]]
}

_tsc() {
    local word=${COMP_WORDS[COMP_CWORD]} before=${COMP_WORDS[COMP_CWORD - 1]} at=1 next script=''
    COMPREPLY=()
    _tsc_is_script "${COMP_WORDS[0]}" && script=yes
    if [[ -n $script && ($before == -[io] || $before == --check) && $COMP_CWORD -gt 1 ]]; then
        mapfile -t COMPREPLY < <(compgen -f -- "$word")
        compopt -o filenames 2>/dev/null
        return
    fi
    # the options of the script come before the program's words, two of them with a file
    while [[ -n $script && $at -lt $COMP_CWORD ]]; do
        case ${COMP_WORDS[at]} in
        -i | -o) at=$((at + 2)) ;;
        --keep | --quiet) at=$((at + 1)) ;;
        *) break ;;
        esac
    done
    next=$(_tsc_next "${COMP_WORDS[@]:at:COMP_CWORD-at}")
    [[ $next == _ ]] && return
    if [[ -n $script && $at -eq $COMP_CWORD ]]; then
        next+=' -i -o --keep --quiet'
        [[ $at -eq 1 || ${COMP_WORDS[*]:1:at-1} == --quiet ]] && next+=' --check'
        [[ $at -eq 1 ]] && next+=' --help --version --prove'
    fi
    mapfile -t COMPREPLY < <(compgen -W "$next" -- "$word")
}

complete -F _tsc tsc
