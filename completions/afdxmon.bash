# Completions of afdxmon for bash, written by tools/completions.

# Offers the words of a list.
_afdxmon_words() {
    mapfile -t COMPREPLY < <(compgen -W "$1" -- "$2")
}

# Offers files.
_afdxmon_files() {
    compopt -o filenames 2> /dev/null
    mapfile -t COMPREPLY < <(compgen -f -- "$1")
}

_afdxmon() {
    local current=$2 previous=$3 i=$COMP_CWORD
    # bash makes three words of --option=value.
    if [ "$current" = '=' ]; then
        current=''
    elif [ "$previous" = '=' ]; then
        previous=${COMP_WORDS[i - 2]}
    fi
    COMPREPLY=()
    if [ "$i" -eq 1 ]; then
        _afdxmon_words 'capture asm watch debug cut links report check transit help -h --help -V --version' "$current"
        return
    fi
    case ${COMP_WORDS[1]} in
        capture | asm | watch | debug | cut | links | report | check | transit)
            case ${COMP_WORDS[1]}:$previous in
                report:--fail-on) _afdxmon_words 'trouble notice' "$current"; return ;;
                capture:--late-us | debug:--late-us) _afdxmon_words 'any' "$current"; return ;;
                cut:--network | report:--network | transit:--network) _afdxmon_words 'A B' "$current"; return ;;
                transit:--police) _afdxmon_words 'bytes frames' "$current"; return ;;
                cut:--verdict) _afdxmon_words 'discarded faults delivered cut runt oversize foreign unconfigured toolong regular excess within first next skip reset off out deliver copy both' "$current"; return ;;
                watch:--workers) _afdxmon_words '1 2 3 4 5 6 7 8' "$current"; return ;;
                *:--around | *:--bound-us | *:--code | *:--column | *:--constant | *:--early-us | *:--expected | *:--filters | *:--from | *:--grace-us | *:--late-us | *:--link | *:--routed | *:--shift-ns | *:--span | *:--title | *:--to | *:--within-us) return ;;
                *:--details | *:--digest | *:--help | *:--json | *:--ledger-only | *:--pcapng | *:--quiet | *:--resume-after-cut | *:--strict | *:--verbose | *:--whole) ;;
                *:-o | *:--*) _afdxmon_files "$current"; return ;;
            esac
            ;;
    esac
    case ${COMP_WORDS[1]}:$current in
        capture:-*) _afdxmon_words '--code --filter --source -o --output --pcapng --late-us -v --verbose -h --help' "$current" ;;
        asm:-*) _afdxmon_words '-v --verbose -h --help' "$current" ;;
        watch:-*) _afdxmon_words '--config --filter --a --b --capture --ledger --details --manifest --digest --workers --late-us --quiet --strict --resume-after-cut --pcapng -v --verbose -h --help' "$current" ;;
        debug:-*) _afdxmon_words '--filter --source --tap --late-us -v --verbose -h --help' "$current" ;;
        cut:-*) _afdxmon_words '--ledger --a --b --before --after --config --link --network --verdict --from --to --span --filters --around --ledger-only --resume-after-cut --pcapng -o --output -v --verbose -h --help' "$current" ;;
        links:-*) _afdxmon_words '--a --b --constant --icd --column --resume-after-cut -v --verbose -h --help' "$current" ;;
        report:-*) _afdxmon_words '--config --ledger --manifest --expected --baseline --baseline-config --transit --from --to --link --network --json --csv --title --fail-on -o --output -v --verbose -h --help' "$current" ;;
        check:-*) _afdxmon_words '--config --filter --a --b --expected --whole --resume-after-cut --json -v --verbose -h --help' "$current" ;;
        transit:-*) _afdxmon_words '--config --before --after --network --within-us --early-us --bound-us --routed --shift-ns --police --grace-us --late-us --resume-after-cut --ledger --json -v --verbose -h --help' "$current" ;;
        help:*) _afdxmon_words 'capture asm watch debug cut links report check transit help' "$current" ;;
        capture:*) _afdxmon_files "$current" ;;
    esac
}

complete -F _afdxmon afdxmon
