# shellcheck shell=bash disable=SC2154
# How ./test proves the repository. It reads this file at the repository's root, with tools/crates.sh,
# and sets `work`, a temporary folder, `copy`, the folder of the copy that is proved, and `tries_all`,
# whether the wrong bodies of all crates are tried. `child` is what would have to be ended.

# What is proved is a copy, so that files may be edited meanwhile, and so that the wrong bodies of
# some crates can be left out. It is the top of a repository, too. As root, `rt` runs what it has
# built as nobody, among the temporary files.
copy_repository() (
  set -o pipefail
  mkdir -p "$copy/.git" "$work/temporary" && touch "$work/begun" &&
    chmod 711 "$work" "$work/temporary" &&
    tar -cf - --anchored --no-wildcards-match-slash --exclude=./.git --exclude='./crates/*/out' . |
    tar -xf - -C "$copy"
)

# The commit that is tested, if this folder is the top of a checkout, whoever owns it.
commit_of_checkout() (
  asks() {
    git -c "safe.directory=$(pwd -P)" rev-parse "$@" 2>/dev/null
  }
  unset "${!GIT_@}"
  [ "$(asks --show-toplevel)" -ef . ] && asks --verify HEAD
)

# Leaves the wrong bodies of one group in the copy. The hash of the commit picks the group, also
# where files have changed since.
leave_out_groups() {
  local commit picked edit
  if $tries_all; then
    wrong_bodies='of all crates'
    return
  elif ! commit=$(commit_of_checkout); then
    wrong_bodies='of all crates, since nothing tells here which commit this is'
    return
  fi
  picked=$("$copy/tools/wrong_bodies.py" "$commit") || return 1
  wrong_bodies="that commit ${commit:0:12} picks: ${picked%%$'\n'*}"
  for edit in "$copy"/crates/*/must-fail/*.edit; do
    grep -qxF "${edit#"$copy/"}" <<<"$picked" || rm -f "$edit" || return 1
  done
}

# Prints what `rt ci` prints, and after each crate how far it is.
tell_progress() {
  local line proved=0 crates
  crates=$(crates_of "$copy/crates.txt" | wc -l)
  while IFS= read -r line; do
    line=${line//"$copy/"/}
    printf '%s\n' "$line"
    printf '%s\n' "$line" >>"$work/log"
    case $line in
      'rt: '*': its tests are proved') ;;
      'rt: '*' proved' | 'rt: '*' is kept: '*)
        proved=$((proved + 1))
        echo "test: $proved of $crates crates proved, $((SECONDS / 60)) min"
        ;;
    esac
  done
}

# The built program and tests go into out/ of the checkout, as if they were built there. They get
# the time at which the gate began, so that a later edit makes them old.
take_built() {
  local crate built to
  for crate in $(crates_of "$copy/crates.txt"); do
    for built in "$copy/crates/$crate/out/$crate" "$copy/crates/$crate/out/${crate}_tests"; do
      if [ ! -f "$built" ] || [ ! -x "$built" ]; then continue; fi
      to=crates/$crate/out/$(basename "$built")
      mkdir -p "crates/$crate/out" && touch -r "$work/begun" "$built" && cp -p "$built" "$to.new" &&
        mv "$to.new" "$to" || return 1
    done
  done
  lines_of_program "$copy/crates.txt" >crates/tt_cli/out/tt_cli.crates
}

# Proves the copy, with the wrong bodies that are left in it. What was printed is in $work/log.
prove() {
  local status tasks
  copy_repository && leave_out_groups || return 1
  echo "test: tries the wrong bodies $wrong_bodies"
  tasks=$(tasks_for_memory)
  [ "$tasks" -lt 1 ] || export RT_JOBS=$tasks
  exec 3< <(cd "$copy" && TMPDIR=$work/temporary exec rt ci 2>&1 </dev/null)
  child=$!
  tell_progress <&3
  wait "$child"
  status=$?
  child=
  [ "$status" -eq 0 ] || return "$status"
  take_built
}
