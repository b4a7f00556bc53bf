# Reads the list of test suites, for the scripts that run suites from the top of the repository.
# shellcheck shell=sh

# each LOOP CALL: calls CALL NAME TRIES QUICK SCRIPT WORD .. for each suite that LOOP runs. QUICK is one word: the option that the
# quick loop adds.
each() {
  while IFS='|' read -r suite loops tries words quick <&3; do
    case " $loops " in
    *" $1 "*) ;;
    *) continue ;;
    esac
    # shellcheck disable=SC2086 # the words of a command
    "$2" "$suite" "$tries" "$quick" $words || return
  done 3<tests/suites.txt
}
