#!/bin/sh
# Runs the program `mu` with the given words, in the caller's folder; of `explore ..` the program `mu_explore`. Standard output and the status
# are the program's own.
#
#   mu WORDS..                answers: by the program that was proved and built from the sources as they are; where there is none, by
#                             the same sources compiled without a proof, which standard error says
#   mu --proved WORDS..       answers only by the proved program, and builds it where it is missing
#   mu --build                proves and builds both programs, and does no more
#   mu --gate                 proves and tests everything by `rt ci`, whose status it gives, and keeps the programs that this built
#   mu --install DIR          puts the proved programs with all that belongs to them into DIR/bin and DIR/share (scripts/install)
#   mu --uninstall DIR        removes what --install put there
#   mu --help, mu --version   explain the words; say which program answers
#   mu --OPTION.. WORDS..     each other option is one of tools/main.py
#
# Where standard error is a terminal, a refusal and an ending that needs a word are explained there unasked.
# Status 14: no program could be built, or it could not be asked.
#
# The same file is DIR/bin/mu after --install. There the programs stand in DIR/share/mu, and nothing is ever built.
set -u
unset CDPATH

fail() {
  echo "mu: $1" >&2
  exit 14
}

case $0 in
/*) top=${0%/*} ;;
*/*) top=$PWD/${0%/*} ;;
*) top=$PWD ;;
esac
if [ -L "$0" ]; then
  top=$(readlink -f -- "$0") || exit 14
  top=${top%/*}
fi
top=${top%/.}
# What the wrapper makes. (rt ci removes the folder `out` of each crate.)
out=$top/out
share=$top
if [ ! -d "$top/crates" ]; then
  share=$top/../share/mu
  [ -x "$share/program" ] && [ -x "$share/explorer" ] || fail "this is neither in a clone of the repository nor where --install put it"
fi

# Prints of each file and folder named on standard input what changes when it does: its number, its size and its time of change.
print_states() {
  cd "$top" && xargs -0 -s 1000000 stat -L --printf '%i %s %.9Z %n\n' 2> /dev/null
}

# Sets `number` to the number of the sources as they are (scripts/building says what that is). It is known where no file and no folder
# of them changed since their sums were taken.
find_number() {
  for known in "$out"/sources-*; do
    if [ -s "$known/states" ] && print_states < "$known/names" | cmp -s - "$known/states"; then
      number=${known##*-}
      return
    fi
  done
  . "$top/scripts/building"
  sum_sources
}

# Sets `asked` to the program that answers these words: `explorer` where the first after all options and their values is `explore`, else
# `program`.
find_asked() {
  asked=program
  is_value=
  for word do
    if [ "$is_value" ]; then
      is_value=
      continue
    fi
    case $word in
    --picture | --seed) is_value=yes ;;
    --*) ;;
    explore)
      asked=explorer
      return
      ;;
    *) return ;;
    esac
  done
}

# Sets `program` to the command that answers, by `asked`.
find_program() {
  if [ "$share" != "$top" ]; then
    program=$share/$asked
    return
  fi
  find_number
  program=$out/$asked-$number
  [ ! -x "$program" ] || return 0
  . "$top/scripts/building"
  if [ "$only_proved" ]; then
    build_program
  else
    build_unproved
  fi
}

# What is asked of the tools: they run the program themselves.
ask_tools() {
  if [ -f "$share/tools/main.py" ]; then
    command -v python3 > /dev/null || fail "$1 needs Python 3"
    exec python3 "$share/tools/main.py" "$program" "$@"
  fi
  if [ "$1" = --explain ]; then
    shift
    "$program" "$@"
    status=$?
    [ "$status" -ne 3 ] || "$share/scripts/explain" "$program" "$@"
    exit "$status"
  fi
  exec "$program" "$@"
}

# Answers, and explains unasked what was answered, by a second call.
answer_on_terminal() {
  "$program" "$@"
  status=$?
  case $asked.$status in
  # It ended well, its output could not be written, there was no memory, or no program: there is nothing to explain. And no search is
  # made twice.
  *.0 | *.4 | *.11 | *.14 | explorer.10) exit "$status" ;;
  esac
  for word do
    # A pipe cannot be read a second time.
    if [ -e "$word" ] && [ ! -f "$word" ] && [ ! -d "$word" ]; then
      exit "$status"
    fi
  done
  if [ ! -f "$share/tools/main.py" ]; then
    [ "$status" -ne 3 ] || "$share/scripts/explain" "$program" "$@"
  elif command -v python3 > /dev/null; then
    python3 "$share/tools/main.py" "$program" --explain "$@" > /dev/null < /dev/null
  fi
  exit "$status"
}

only_proved=
find_asked "$@"
case ${1-} in
--build | --gate)
  [ $# -eq 1 ] || fail "$1 takes no further word"
  [ "$share" = "$top" ] || fail "$1 works only in a clone of the repository"
  . "$top/scripts/building"
  if [ "$1" = --gate ]; then
    one_at_a_time build pass_gate
    exit
  fi
  find_number
  program=$out/program-$number
  [ -x "$program" ] || build_program
  exit 0
  ;;
--install | --uninstall)
  [ $# -eq 2 ] && [ -n "$2" ] || fail "$1 takes a folder, and no further word"
  [ "$share" = "$top" ] || fail "$1 works only in a clone of the repository"
  if [ "$1" = --uninstall ]; then
    exec "$top/scripts/install" --uninstall "$2"
  fi
  only_proved=yes
  asked=program
  find_program
  . "$top/scripts/building"
  exec "$top/scripts/install" --install "$2" "$program" "$out/explorer-$number" "$(print_version)"
  ;;
--help)
  exec cat "$share/share/help"
  ;;
--version)
  [ "$share" = "$top" ] || exec cat "$share/version"
  find_number
  . "$top/scripts/building"
  print_version
  exit
  ;;
--proved)
  only_proved=yes
  shift
  ;;
esac
find_program
case ${1-} in
--*) ask_tools "$@" ;;
esac
[ -t 2 ] || exec "$program" "$@"
answer_on_terminal "$@"
