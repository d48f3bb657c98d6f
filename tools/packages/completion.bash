# Completion of bikhnoun, of the programs behind it, and of the names of an earlier version, for bash.

# The words, and then the flags of each. A test compares them with what --help says.
_bikhnoun_words="play run explain check statement order report export plan cdp levels translate mount traces ways timeline page kernel version"

_bikhnoun_flags() {
    case $1 in
        play | run | report) echo "--help --version --journal --json --windows --quiet" ;;
        cdp | levels) echo "--help --version --quiet" ;;
        explain) echo "--help --version --machine --for --program" ;;
        check | statement) echo "--help --version --program" ;;
        mount) echo "--help --version --machine --tasks --pids --strict --program --record --force --resume --run" ;;
        traces) echo "--help --version --for --machine --tasks --head --l1 --l2 --proved --ratio --rest --code --most" ;;
        ways) echo "--help --version --program --lowest --curve --scheduler" ;;
        timeline) echo "--help --version --program --domain --rows --svg" ;;
        page) echo "--help --version --run --export --open --port --program" ;;
        kernel) echo "--help --version --build --kernel --folder --program --all --json --occupancy --go-on --model --page --jobs" ;;
        version) echo "--help --version --release" ;;
        *) echo "--help --version" ;;
    esac
}

# Offers what stands in the first word that is given, but nothing that was typed before; other words are files.
_bikhnoun_offer() {
    local word left=
    for word in $1; do
        [[ " ${COMP_WORDS[*]:1:COMP_CWORD-1} " = *" $word "* ]] || left="$left $word"
    done
    COMPREPLY=($(compgen -W "$left" -- "${COMP_WORDS[COMP_CWORD]}"))
}

_bikhnoun() {
    local word=${COMP_WORDS[1]}
    if [ "$COMP_CWORD" -eq 1 ]; then
        _bikhnoun_offer "$_bikhnoun_words --help --version"
    elif [[ ${COMP_WORDS[COMP_CWORD]} = -* ]]; then
        _bikhnoun_offer "$(_bikhnoun_flags "$word")"
    elif [ "${COMP_WORDS[COMP_CWORD - 1]}" = --for ] && [ "$word" = traces ]; then
        _bikhnoun_offer "sim cdp l2 trace"
    elif [ "${COMP_WORDS[COMP_CWORD - 1]}" = --for ]; then
        _bikhnoun_offer "sim cdp l2 journals trace"
    elif [ "$COMP_CWORD" -eq 2 ] && [ "$word" = export ]; then
        _bikhnoun_offer "step run"
    elif [ "$COMP_CWORD" -eq 2 ] && [ "$word" = plan ]; then
        _bikhnoun_offer "curve divide share filter draw"
    elif [ "$COMP_CWORD" -eq 2 ] && [ "$word" = translate ]; then
        _bikhnoun_offer "cdp l2 l3"
    fi
}
complete -o default -F _bikhnoun bikhnoun

# The flags of a curve that may follow this one and its word.
_plan_flags() {
    case $1 in
        --l1) echo "--l2 --one-of --first" ;;
        --l2) echo "--one-of --first" ;;
        --one-of) echo "--scaled --first" ;;
    esac
}

# The programs, which have few words and no --help, and the names of an earlier version.
_resctrl() {
    local name=${COMP_WORDS[0]##*/}
    case $name:$COMP_CWORD in
        resctrl_sim:1) _bikhnoun_offer "step run gen" ;;
        resctrl_sim:*) _bikhnoun_offer "--journal --json --windows --quiet" ;;
        resctrl_plan:1) _bikhnoun_offer "curve divide share filter" ;;
        resctrl_plan:2)
            case ${COMP_WORDS[1]} in
                divide) _bikhnoun_offer "--compare --used --apply" ;;
                filter) _bikhnoun_offer "--l1 --l2" ;;
            esac
            ;;
        resctrl_plan:3) [ "${COMP_WORDS[2]}" != --compare ] || _bikhnoun_offer "--used" ;;
        resctrl_plan:4)
            case ${COMP_WORDS[1]} in
                curve) _bikhnoun_offer "--l1 --l2 --one-of --first" ;;
                share) _bikhnoun_offer "--l1 --l2 --ratio" ;;
            esac
            ;;
        resctrl_plan:*) _bikhnoun_offer "$(_plan_flags "${COMP_WORDS[COMP_CWORD - 2]}")" ;;
        resctrl_check:1) _bikhnoun_offer "export check" ;;
        resctrl_check:2) [ "${COMP_WORDS[1]}" != export ] || _bikhnoun_offer "step run" ;;
        resctrl_cdp:1 | resctrl_l2:1) _bikhnoun_offer "--quiet" ;;
        resctrl_replay:1) _bikhnoun_offer "order report" ;;
        resctrl_replay:*) [ "${COMP_WORDS[1]}" != report ] || _bikhnoun_offer "--journal --json --windows --quiet" ;;
        resctrl_sim-*) _bikhnoun_offer "$(_bikhnoun_flags "${name#resctrl_sim-}")" ;;
    esac
}
complete -o default -F _resctrl resctrl_sim resctrl_plan resctrl_check resctrl_cdp resctrl_l2 resctrl_replay
complete -o default -F _resctrl resctrl_sim-explain resctrl_sim-kernel resctrl_sim-mount resctrl_sim-page
complete -o default -F _resctrl resctrl_sim-timeline resctrl_sim-traces resctrl_sim-ways
