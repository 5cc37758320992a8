# Completion of the words of bfm_cli for bash. Source this file:
#     . completion/bfm_cli.bash
# It completes jobs, kinds of starts and the keys that a job still lacks. Behind `key=` it shows the range of
# the number and its default, and completes the states of a switch, and 0 and 1 where these are all there is.

# Prints the keys of a job, or of a kind of start, a line each: name, range or states, and default or "required".
_bfm_cli_keys() {
    local limit='limit 0..1073741824 default:268435456'
    local sides=$'x 8..512 required\ny 8..512 required\nz 8..512 required'
    local plane=$'px 0..1 default:1\npy 0..1 default:1'
    case $1 in
    run)
        echo 'seed 0..18446744073709551615 required'
        echo 'frames 0..1048576 required'
        echo 'every 1..1073741824 required'
        echo 'link on|off default:off'
        echo "$limit"
        ;;
    check | info | radii | moves | contacts | clusters)
        echo "$limit"
        ;;
    trial)
        echo 'number 0..18446744073709551615 required'
        ;;
    melt)
        echo "$sides"
        echo 'chains 1..262144 required'
        echo 'length 1..262144 required'
        echo "$plane"
        echo 'pz 0..1 default:1'
        ;;
    brush)
        echo "$sides"
        echo 'spacing 2..512 required'
        echo 'length 1..262144 required'
        echo "$plane"
        ;;
    network)
        echo 'nodes 1..128 required'
        echo 'strand 0..255 required'
        ;;
    esac
}

# Offers those of the words behind the first that begin with it.
_bfm_cli_offer() {
    local current=$1 word
    shift
    for word in "$@"; do
        if [[ $word == "$current"* ]]; then
            COMPREPLY+=("$word")
        fi
    done
}

# Shows or completes the number or the state of a key, by what stands behind its `=`.
_bfm_cli_value() {
    local key=$1 value=$2 range=$3 usual=$4 before=
    # Where `=` parts no words, a candidate replaces the key as well.
    if [[ $COMP_WORDBREAKS != *=* ]]; then
        before=$key=
    fi
    if [[ $range == 0..1 ]]; then
        _bfm_cli_offer "$before$value" "${before}0" "${before}1"
    elif [[ $range == *'|'* ]]; then
        _bfm_cli_offer "$before$value" "$before${range%%|*}" "$before${range#*|}"
    elif [[ -z $value && ${COMP_TYPE:-9} != 37 ]]; then
        # Two hints without a common beginning: bash lists them and inserts neither. Walking through a menu
        # would insert them, so it gets none.
        COMPREPLY=("$range" "($usual)")
    fi
}

_bfm_cli() {
    COMPREPLY=()
    local line=${COMP_LINE:0:COMP_POINT}
    local -a words=()
    read -ra words <<< "$line"
    local current=
    if [[ $line != *[[:blank:]] ]]; then
        current=${words[${#words[@]} - 1]}
        unset "words[${#words[@]}-1]"
    fi

    # What stands behind a redirection is a file.
    local last=
    if ((${#words[@]} > 0)); then
        last=${words[${#words[@]} - 1]}
    fi
    if [[ $current == *['<>']* ]]; then
        last='>'
        current=${current##*['<>']}
        current=${current#|}
    fi
    if [[ $last == *['<>'] || $last == *'>|' ]]; then
        local file
        while IFS= read -r file; do
            COMPREPLY+=("$file")
        done < <(compgen -f -- "$current")
        compopt -o filenames 2> /dev/null
        return
    fi

    # The words of the program: what stands before the current one, without redirections.
    local -a given=()
    local i
    for ((i = 1; i < ${#words[@]}; i++)); do
        case ${words[i]} in
        *['<>'] | *'>|') ((i++)) ;;
        *['<>']*) ;;
        *) given+=("${words[i]}") ;;
        esac
    done

    if ((${#given[@]} == 0)); then
        _bfm_cli_offer "$current" run check info radii moves contacts clusters trial build
        return
    fi
    local job=${given[0]}
    if [[ $job == build ]]; then
        if ((${#given[@]} == 1)); then
            _bfm_cli_offer "$current" melt brush network
            return
        fi
        job=${given[1]}
    elif [[ $job == melt || $job == brush || $job == network ]]; then
        return
    fi

    local key range usual word
    while read -r key range usual; do
        if [[ $current == "$key="* ]]; then
            _bfm_cli_value "$key" "${current#*=}" "$range" "${usual/:/ }"
            return
        fi
        for word in "${given[@]}"; do
            if [[ $word == "$key="* ]]; then
                continue 2
            fi
        done
        _bfm_cli_offer "$current" "$key="
    done < <(_bfm_cli_keys "$job")
    compopt -o nospace 2> /dev/null
}

complete -F _bfm_cli bfm_cli
