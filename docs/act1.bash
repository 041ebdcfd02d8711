# Completion of act1's words for bash: source this file, in ~/.bashrc for example. It serves `act1` and `./act1`.
# The words stand in the four tables below, which .ci/tour compares with the program and with docs/FORMATS.md.

_act1_commands="flow sim extract check search cover blif demo"

# What stands in each place behind a command's name.
declare -A _act1_places=(
    [flow]="DEVICE BLIF FUSES REPORT"
    [sim]="DEVICE FUSES VECTORS"
    [extract]="DEVICE FUSES BLIF"
    [check]="DEVICE REPORT"
    [search]="JOB ANSWER"
    [cover]="BLIF"
    [blif]="BLIF"
    [demo]="DEVICE N FUSES"
)

# The options of a command, and the values that are offered of each: the one that holds where the option isn't given comes first.
declare -A _act1_options=(
    [flow]="--k --budget --seed --jobs --with"
    [sim]="--fill"
)
declare -A _act1_values=(
    [--k]="3 1 2 4 5"
    [--budget]="100000 1000000 10000000"
    [--seed]="0 1 2 3 4 5 6 7"
    [--jobs]="0"
    [--fill]="0 1"
)

_act1() {
    local word=${COMP_WORDS[COMP_CWORD]} before=${COMP_WORDS[COMP_CWORD - 1]}
    local command="" place=0 i at=1
    COMPREPLY=()
    if [ "${COMP_WORDS[1]}" = --unproved ]; then at=2; fi
    if [ "$COMP_CWORD" -le "$at" ]; then
        local offered=$_act1_commands
        [ "$COMP_CWORD" = 1 ] && offered="$offered --unproved"
        [ "$COMP_CWORD" = "$at" ] && mapfile -t COMPREPLY < <(compgen -W "$offered" -- "$word")
        return
    fi
    command=${COMP_WORDS[at]}
    # The place of the word at hand, without the options and their values.
    for ((i = at + 1; i < COMP_CWORD; i++)); do
        case ${COMP_WORDS[i]} in
            -*=*) ;;
            =) i=$((i + 1)) ;;
            --*) i=$((i + 1)) ;;
            *) place=$((place + 1)) ;;
        esac
    done
    if [[ $before == --* && $before != *=* ]]; then
        if [ "$before" = --with ]; then
            mapfile -t COMPREPLY < <(compgen -c -- "$word")
        else
            mapfile -t COMPREPLY < <(compgen -W "${_act1_values[$before]-}" -- "$word")
        fi
    elif [[ $word == -* ]]; then
        mapfile -t COMPREPLY < <(compgen -W "${_act1_options[$command]-}" -- "$word")
    else
        # Files that look like what stands here, and else any file.
        local places pattern
        read -r -a places <<<"${_act1_places[$command]-}"
        case ${places[place]-} in
            DEVICE) pattern='*.toml' ;;
            BLIF) pattern='*.blif' ;;
            FUSES) pattern='*.fuses' ;;
            VECTORS) pattern='*.vectors' ;;
            REPORT) pattern='*.report' ;;
            JOB) pattern='*.job' ;;
            ANSWER) pattern='*.answer' ;;
            *) return ;;
        esac
        mapfile -t COMPREPLY < <(compgen -f -X "!$pattern" -- "$word"; compgen -d -S / -- "$word")
        [ "${#COMPREPLY[@]}" -gt 0 ] || mapfile -t COMPREPLY < <(compgen -f -- "$word")
        compopt -o filenames -o nospace 2>/dev/null
        [ "${#COMPREPLY[@]}" = 1 ] && [ ! -d "${COMPREPLY[0]}" ] && compopt +o nospace 2>/dev/null
    fi
}

complete -F _act1 act1 ./act1
