# The words of a call of `fmc`: what is wrong with them, and what they may be. The script `fmc` reads this file. The
# program decides by itself (docs/LANGUAGE.md, "Commands"); bench/script.py compares both.

# Whether a word is a number of 1 to 18 digits.
is_number() {
    case $1 in
        '' | *[!0123456789]* | ???????????????????*) return 1 ;;
    esac
}

# Sets wrong if the value of an option is none of those it may have.
judge_value() {
    case $1 in
        --turns) most=1000000000 ;;
        --slice) most=1000000 ;;
        --workers) most=64 ;;
        --plan)
            case $2 in
                cyclic | block) ;;
                *) wrong="--plan is cyclic or block, and not \"$2\"" ;;
            esac
            return ;;
        *) return ;;
    esac
    if ! is_number "$2" || [ "$2" -lt 1 ] || [ "$2" -gt "$most" ]; then
        wrong="$1 is a number from 1 to $most${2:+, and not \"$2\"}"
    fi
}

# Sets options to those that a command has, or fails if there is no such command.
options_of() {
    case $1 in
        run | trace) options='--turns --slice --workers --plan --vars' ;;
        replay) options='--vars' ;;
        exec) options='--turns --vars' ;;
        demo) options='--turns --slice --workers --plan' ;;
        nodes) options='--turns --plan --vars' ;;
        check | list | flow | compile | make) options= ;;
        *) return 1 ;;
    esac
}

# Sets wrong if the words behind a command aren't options of it, each at most once, with their values.
judge_options() {
    given=
    while [ $# -gt 0 ] && [ -z "$wrong" ]; do
        word=$1
        case $1 in
            --vars) name=--vars value= ;;
            --turns | --slice | --workers | --plan) name=$1 value=${2-} ;;
            --turns=* | --slice=* | --workers=* | --plan=*) name=${1%%=*} value=${1#*=} ;;
            *) name= ;;
        esac
        case " $options " in
            *" ${name:-none} "*) ;;
            *)
                wrong="\"$word\" is no option of $command"
                return ;;
        esac
        case " $given " in
            *" $name "*) wrong="$name stands twice" ;;
            *) judge_value "$name" "$value" ;;
        esac
        given="$given $name"
        # the value stands in a word of its own
        [ "$word" = "$name" ] && [ "$name" != --vars ] && [ $# -gt 1 ] && shift
        shift
    done
}

# Sets wrong to what is wrong with the words of a call, or to nothing.
judge() {
    wrong= options= word= command=${1-}
    if ! options_of "$command"; then
        wrong="\"$command\" is no command"
        [ $# -gt 0 ] || wrong='a command is missing'
        return
    fi
    shift
    case $command in
        make | demo | nodes)
            if ! is_number "${1-}"; then
                wrong="behind $command stands a number of 1 to 18 digits${1+, and not \"$1\"}"
                return
            fi
            shift ;;
    esac
    judge_options "$@"
}

table_of_commands() {
    cat << TABLE
  fmc run [OPTIONS]      check the program, run it, and write its report
  fmc trace [OPTIONS]    check it, run it, and write the trace of the run
  fmc replay [--vars]    read a trace, play its entries, and write the report
  fmc check              say whether it is lawful, and whether it is deterministic
  fmc flow               say whether it may deadlock
  fmc list               write its statements
  fmc compile            write its object text
  fmc exec [OPTIONS]     read an object text, run it, and write the report
  fmc nodes N [OPTIONS]  run it on hosts over a network that loses packets
  fmc make N             write the program of the number N
  fmc demo N [OPTIONS]   run that program, and write a summary
The program comes by < FILE, and so does a trace or an object text. Options, each with those that have it:
  --turns T              1 to 1000000000: the bound on the cost           run trace demo nodes exec
  --slice S              1 to 1000000: the steps before the next process  run trace demo
  --workers W            1 to 64: the threads                             run trace demo
  --plan cyclic | block  how nodes are dealt to the threads               run trace demo nodes
  --vars                 the report has variables and the cost            run trace replay nodes exec
TABLE
}

# Sets may_be to what the words behind a command may be.
options_text() {
    may_be="$command takes no more words"
    case $command in
        make) may_be='make takes its number alone' ;;
        replay) may_be='replay takes --vars alone' ;;
        run | trace | exec | demo | nodes)
            may_be=
            for name in $options; do
                case $name in
                    --turns) name='--turns T' ;;
                    --slice) name='--slice S' ;;
                    --workers) name='--workers W' ;;
                    --plan) name='--plan cyclic, --plan block' ;;
                esac
                may_be=$may_be${may_be:+, }$name
            done
            may_be="the options of $command are $may_be" ;;
    esac
}

# Says what is wrong with the words, what they may be, and the version.
explain() {
    version="fmc $(cat "$top/VERSION")"
    case $command in
        --version) echo "$version" ;;
        -h | --help)
            echo "$version checks and runs programs in Fortran M."
            table_of_commands ;;
        *)
            if options_of "$command"; then
                options_text
                echo "fmc: $wrong; $may_be"
            else
                echo "fmc: $wrong; the commands of $version are"
                table_of_commands
            fi
            [ ! -f "${word:-$command}" ] || echo "fmc: a file comes by < ${word:-$command}" ;;
    esac
    [ ! -t 2 ] || echo "fmc: the manual: man -l $top/docs/fmc.1, or $top/docs/LANGUAGE.md"
}
