# shellcheck shell=bash disable=SC2154
# How ./build proves the crates of the program. It reads this file at the repository's root, with
# tools/crates.sh, and sets `crates`, the crates of the program, and `work`, the folder in which
# `repository` is the copy that is proved.

say() {
  echo "build: $1" >&2
}

# What is proved is a copy, so that files may be edited meanwhile. It has no must-fail edits: these
# are tried by ./test. It is the top of a repository, too. As root, `rt` runs what it has built as
# nobody, among the temporary files.
copy_crates() {
  local crate part
  mkdir -p "$work/repository/.git" "$work/temporary" && touch "$work/begun" || return 1
  chmod 711 "$work" "$work/temporary" || return 1
  for crate in "${crates[@]}"; do
    mkdir -p "$work/repository/crates/$crate" || return 1
    for part in src specs proofs args stdin stdout status data; do
      [ ! -e "crates/$crate/$part" ] ||
        cp -R "crates/$crate/$part" "$work/repository/crates/$crate/" || return 1
    done
  done
  lines_of_program crates.txt >"$work/repository/crates.txt" && cp HANDLES "$work/repository/"
}

# Tells of a crate that is done, once.
declare -A told
tell_of() {
  [ -z "${told[$1]-}" ] || return 0
  told[$1]=$2
  say "$1 $2 (${#told[@]} of ${#crates[@]} crates, $((SECONDS / 60)) min)"
}

# Puts the lines on standard input into a file, and tells of each crate that one says is done.
tell_progress() {
  local line crate
  while IFS= read -r line; do
    printf '%s\n' "$line" >>"$1"
    crate=${line#rt: }
    crate=${crate%% *}
    case $line in
      'rt: '*': its tests are proved') ;;
      'rt: '*' proved') tell_of "$crate" 'is proved' ;;
      'rt: '*' is kept: '*) tell_of "$crate" 'was proved before' ;;
    esac
  done
}

# Whether the kit keeps what passes `rt ci` for some crates. Where CI is true it carries out no such
# command.
keeps_proofs() {
  [ "${CI-}" != true ] && rt help 2>&1 | grep 'rt ci NAME' >/dev/null
}

# The runs of `rt` that haven't ended, by their crates.
declare -A running=()
end_running() {
  [ ${#running[@]} -eq 0 ] || { kill "${running[@]}" && wait "${running[@]}"; } 2>/dev/null
  running=()
}

# Whether all libraries of a crate are in `done_with`.
is_ready() {
  local library
  for library in ${uses[$1]}; do
    [ -n "${done_with[$library]-kit}" ] || return 1
  done
}

# Proves the crates below the program, each by an `rt ci` of its own once its libraries are kept.
# One `rt ci` over all of them would give a crate one processor where another can be proved beside
# it: it takes the processors for shared out among all proofs that wait, those of tests too, and
# each crate has one for tests, even if it has none.
prove_each() {
  local crate lanes libraries waiting
  local -A uses done_with
  lanes=$(lanes_for_crates)
  [ "$lanes" -gt 1 ] || return 0
  while IFS=: read -r crate libraries; do
    uses[$crate]=$libraries
    done_with[$crate]=
  done <"$work/repository/crates.txt"
  mapfile -t waiting < <(crates_by_chain | grep -vx tt_cli)
  while :; do
    for crate in "${waiting[@]}"; do
      [ ${#running[@]} -lt "$lanes" ] || break
      [ -z "${done_with[$crate]}${running[$crate]-}" ] || continue
      is_ready "$crate" || continue
      (cd "$work/repository" && TMPDIR=$work/temporary exec rt ci "$crate") \
        >"$work/$crate.log" 2>&1 </dev/null &
      running[$crate]=$!
    done
    [ ${#running[@]} -gt 0 ] || return 0
    wait -n "${running[@]}"
    for crate in "${!running[@]}"; do
      ! jobs -rp | grep -qx "${running[$crate]}" || continue
      unset "running[$crate]"
      done_with[$crate]=true
      tell_progress /dev/null < <(grep "^rt: $crate " "$work/$crate.log")
      if ! tail -n 1 "$work/$crate.log" | grep -q ' passed, 0 failed'; then
        mv "$work/$crate.log" "$work/log"
        return 1
      fi
      # Where it couldn't be kept, those above it would prove it again.
      grep -q '^rt: .* passed, and that is kept' "$work/$crate.log" || return 0
    done
  done
}

# Proves what isn't kept, and builds and runs the program.
prove_all() {
  exec 3< <(cd "$work/repository" && TMPDIR=$work/temporary exec rt ci 2>&1 </dev/null)
  running[all]=$!
  tell_progress "$work/log" <&3
  wait "${running[all]}"
  local status=$?
  unset 'running[all]'
  return "$status"
}
