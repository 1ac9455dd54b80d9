# Made by tools/completions.py of what the help of countygroups says.
# Bash 4 or later completes the words of countygroups once it has read this file.

_countygroups() {
    local word=${COMP_WORDS[COMP_CWORD]} before=${COMP_WORDS[COMP_CWORD - 1]}
    local command=${COMP_WORDS[1]} options with_file with_value option left=
    local given=" ${COMP_WORDS[*]:0:COMP_CWORD} "
    COMPREPLY=()
    # Bash cuts `--geo=FILE` into three words.
    if [ "$word" = "=" ]; then
        word=
    elif [ "$before" = "=" ]; then
        before=${COMP_WORDS[COMP_CWORD - 2]}
    fi
    if [ "$COMP_CWORD" -eq 1 ]; then
        mapfile -t COMPREPLY < <(compgen -W "solve check judge list size audit share piece worker -h --help -V --version" -- "$word")
        return
    fi
    case $command in
        solve)
            options="-h --help --geo --segment --people --chamber --state --tolerance --part --of --adjacency --links --withdrawn --certificate --out --table --events --record --json --names --steps"
            with_file="--geo --segment --people --adjacency --links --withdrawn --certificate --out --table --events --record"
            with_value="--chamber --state --tolerance --part --of --steps"
            ;;
        check)
            options="-h --help --geo --segment --people --chamber --state --tolerance --part --of --adjacency --links --withdrawn --certificate --table --record --json --names --budget"
            with_file="--geo --segment --people --adjacency --links --withdrawn --certificate --table --record"
            with_value="--chamber --state --tolerance --part --of --budget"
            ;;
        judge)
            options="-h --help --geo --segment --people --chamber --state --tolerance --part --of --adjacency --links --withdrawn --grouping --certificate --table --record --json --names --budget"
            with_file="--geo --segment --people --adjacency --links --withdrawn --grouping --certificate --table --record"
            with_value="--chamber --state --tolerance --part --of --budget"
            ;;
        list)
            options="-h --help --geo --segment --people --chamber --state --tolerance --part --of --adjacency --links --withdrawn --certificate --which --number --out --groupings --record --json --names --budget"
            with_file="--geo --segment --people --adjacency --links --withdrawn --certificate --which --out --groupings --record"
            with_value="--chamber --state --tolerance --part --of --number --budget"
            ;;
        size)
            options="-h --help --geo --segment --people --chamber --state --tolerance --part --of --record --json"
            with_file="--geo --segment --people --record"
            with_value="--chamber --state --tolerance --part --of"
            ;;
        audit)
            options="-h --help --geo --segment --people --chamber --state --tolerance --part --of --adjacency --links --withdrawn --grouping --assignments --districts --record --json"
            with_file="--geo --segment --people --adjacency --links --withdrawn --grouping --assignments --districts --record"
            with_value="--chamber --state --tolerance --part --of"
            ;;
        share)
            options="-h --help --geo --segment --people --chamber --state --tolerance --part --of --adjacency --links --withdrawn --grouping --events --certificate --record --limit --depth --budget"
            with_file="--geo --segment --people --adjacency --links --withdrawn --grouping --events --certificate --record"
            with_value="--chamber --state --tolerance --part --of --limit --depth --budget"
            ;;
        piece)
            options="-h --help --geo --segment --people --chamber --state --tolerance --part --of --adjacency --links --withdrawn --grouping --events --record --limit --depth --round --number --steps"
            with_file="--geo --segment --people --adjacency --links --withdrawn --grouping --events --record"
            with_value="--chamber --state --tolerance --part --of --limit --depth --round --number --steps"
            ;;
        worker)
            options="-h --help --geo --segment --people --chamber --state --tolerance --part --of --adjacency --links --withdrawn --record --steps"
            with_file="--geo --segment --people --adjacency --links --withdrawn --record"
            with_value="--chamber --state --tolerance --part --of --steps"
            ;;
        *) return ;;
    esac
    case " $with_file " in
        *" $before "*)
            compopt -o filenames 2>/dev/null
            mapfile -t COMPREPLY < <(compgen -f -- "$word")
            return
            ;;
    esac
    case " $with_value " in *" $before "*) return ;; esac
    # An option may be given once.
    for option in $options; do
        case $given in *" $option "*) ;; *) left+=" $option" ;; esac
    done
    mapfile -t COMPREPLY < <(compgen -W "$left" -- "$word")
}
complete -F _countygroups countygroups
