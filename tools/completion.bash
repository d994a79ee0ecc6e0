# Completion for bash, of the words of ./cells, ./cellas, ./cellaudit, ./build and the tools beside this file. In a shell, or in ~/.bashrc:
#
#     . tools/completion.bash
#
# It completes folders that have a script or an object, the names of scripts in such a folder, and options.

_cells_options='--base --pages --generate --seed'

# The files of a folder that could be scripts: no object, source or page.
_cells_files() {
    local name
    for name in "$1"/*; do
        case ${name##*/} in
        *.o | *.c | *.h | *.s | *.md | *.svg | Makefile | transcript) ;;
        *) [ -f "$name" ] && printf '%s\n' "${name##*/}" ;;
        esac
    done
}

# The words before the one that is completed, without options and their values.
_cells_operands() {
    local at
    operands=()
    for ((at = 1; at < COMP_CWORD; at++)); do
        case ${COMP_WORDS[at]} in
        --base | --pages | --generate | --seed) at=$((at + 1)) ;;
        -*) ;;
        *) operands+=("${COMP_WORDS[at]}") ;;
        esac
    done
}

_cells_complete() {
    local word=${COMP_WORDS[COMP_CWORD]} operands options
    _cells_operands
    COMPREPLY=()
    if [[ $word == -* ]]; then
        case $1 in *sweep) options=--help ;; *) options=$_cells_options ;; esac
        mapfile -t COMPREPLY < <(compgen -W "$options" -- "$word")
    elif [ ${#operands[@]} -eq 0 ]; then
        compopt -o filenames
        mapfile -t COMPREPLY < <(compgen -d -- "$word")
    elif [ ${#operands[@]} -eq 1 ]; then
        mapfile -t COMPREPLY < <(compgen -W "$(_cells_files "${operands[0]}")" -- "$word")
    fi
}

_cellas_complete() {
    local word=${COMP_WORDS[COMP_CWORD]} operands
    _cells_operands
    COMPREPLY=()
    if [ ${#operands[@]} -eq 0 ]; then
        compopt -o filenames
        mapfile -t COMPREPLY < <(compgen -d -- "$word")
    elif [ ${#operands[@]} -eq 1 ]; then
        mapfile -t COMPREPLY < <(cd "${operands[0]}" 2> /dev/null && compgen -G '*.s' -- "$word" | grep -F -- "$word")
    fi
}

_cellaudit_complete() {
    local word=${COMP_WORDS[COMP_CWORD]} operands
    _cells_operands
    COMPREPLY=()
    if [ ${#operands[@]} -eq 0 ]; then
        compopt -o filenames
        mapfile -t COMPREPLY < <(compgen -d -- "$word")
    elif [ ${#operands[@]} -eq 1 ]; then
        mapfile -t COMPREPLY < <(compgen -W "$(_cells_files "${operands[0]}")" -- "$word")
    fi
}

complete -F _cells_complete cells ./cells sweep tools/sweep
complete -F _cellas_complete cellas ./cellas
complete -F _cellaudit_complete cellaudit ./cellaudit
complete -W '--jobs cells cellas cellaudit' build ./build
complete -f names tools/names explain tools/explain json tools/json why tools/why draw.py tools/draw.py
