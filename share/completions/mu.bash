# Completions of `mu` for bash.

# The names of the functions that a bundle defines.
_mu_functions() {
  [ -f "$1" ] && sed -n 's/^[[:space:]]*\.funcdef[[:space:]]\{1,\}\(@[^[:space:]]*\).*/\1/p' -- "$1" 2> /dev/null
}

_mu() {
  local tools='--explain --show --results --picture --step --picks --seed --check-all'
  local own='--proved --build --gate --install --uninstall --version --help'
  local of_judge='--release-sequences'
  local of_run='--entry --hail --client --auto --schedule --release-sequences --steps --cells'
  local of_explore='--entry --runs --condition --hail --client --auto --release-sequences --steps --cells'
  # The words before the cursor. bash breaks words at `@` and `:`, so they are taken from the line.
  local line=${COMP_LINE:0:COMP_POINT} words current before at=1 offered=
  read -ra words <<< "$line"
  current=
  case $line in
  *[[:space:]]) ;;
  *)
    current=${words[-1]}
    unset 'words[-1]'
    ;;
  esac
  before=${words[-1]}
  while [ "$at" -lt "${#words[@]}" ]; do
    case ${words[at]} in
    --picture | --seed | --install | --uninstall) at=$((at + 2)) ;;
    --*) at=$((at + 1)) ;;
    *) break ;;
    esac
  done
  local command=${words[at]-} file=${words[at + 1]-}
  COMPREPLY=()
  case $before in
  --install | --uninstall)
    compopt -o dirnames 2> /dev/null
    return
    ;;
  --entry) offered=$(_mu_functions "$file") ;;
  --release-sequences) offered='c11 rmw' ;;
  --steps | --cells | --runs | --seed | trial) return ;;
  --hail | --client | --schedule | --condition | --picture | --check-all | check | print | run | explore | judge | join)
    compopt -o default 2> /dev/null
    return
    ;;
  *)
    case $command in
    '') offered="check print run explore trial judge join $tools"
      [ "${#words[@]}" -gt 1 ] || offered="$offered $own" ;;
    run) offered=$of_run ;;
    explore) offered=$of_explore ;;
    judge) offered=$of_judge ;;
    join)
      compopt -o default 2> /dev/null
      return ;;
    *) return ;;
    esac
    ;;
  esac
  local IFS=$' \t\n'
  COMPREPLY=($(compgen -W "$offered" -- "$current"))
  # bash puts only what stands after its last break of the word.
  case $current in
  *@*) [[ $COMP_WORDBREAKS != *@* ]] || COMPREPLY=("${COMPREPLY[@]#"${current%"${current##*@}"}"}") ;;
  esac
}

complete -F _mu mu
